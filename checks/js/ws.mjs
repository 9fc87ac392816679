// The package ws of Debian: both sides of its WebSockets.
import { once } from 'node:events';
import { createRequire } from 'node:module';

const { WebSocket, WebSocketServer } = createRequire(import.meta.url)('/usr/share/nodejs/ws');

/** As docs/JAVASCRIPT.md says. */
const OPTIONS = { perMessageDeflate: false, maxPayload: 65535 };

/**
 * A server on 127.0.0.1 at `url`: `accept` gives the next socket that connects, and `pair` both sides of a connection.
 */
export async function webSockets() {
  const server = new WebSocketServer({ port: 0, host: '127.0.0.1', ...OPTIONS });
  await once(server, 'listening');
  const waiting = [];
  server.on('connection', (socket) => waiting.shift()(socket));
  const url = `ws://127.0.0.1:${server.address().port}`;
  const accept = () => new Promise((resolve) => { waiting.push(resolve); });
  const pair = async () => {
    const accepted = accept();
    const client = new WebSocket(url, OPTIONS);
    return [client, await accepted];
  };
  return { accept, pair, url, close: () => server.close() };
}
