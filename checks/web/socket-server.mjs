// The server's ends of channels over a WebSocket, by the path that the client asks for: those that answer as they
// should, and those that don't.
import { KeyPair, NoiseSocket, load } from '../../bindings/js/noise.mjs';
import { OPTIONS } from './socket-client.mjs';
import { takeWebSockets } from './websocket.mjs';

const FAULTS = {
  close: (socket) => socket.close(),
  cut: (socket) => socket.cut(),
  text: (socket) => socket.send('a text'),
  long: (socket) => socket.send(new Uint8Array(65536)),
  longer: (socket) => socket.send(new Uint8Array(1 << 20)),
};

/** What each path has to come to at the client. */
export const EXPECTED = {
  echo: '65519,1,1, and then undefined',
  'echo-responder': '65519,1,1, and then undefined',
  'handshake-close': 'NOISE_CUT',
  'handshake-cut': 'NOISE_CUT',
  'handshake-text': 'NOISE_SHORT',
  'handshake-long': 'NOISE_LENGTH',
  'handshake-longer': 'NOISE_LENGTH',
  close: 'NOISE_CUT, and then NOISE_CUT',
  cut: 'NOISE_CUT, and then NOISE_CUT',
  text: 'NOISE_SHORT, and then NOISE_SHORT',
  long: 'NOISE_LENGTH, and then NOISE_LENGTH',
  longer: 'NOISE_LENGTH, and then NOISE_LENGTH',
};

/** Takes the WebSockets of an HTTP server. `closed` counts those whose client has closed them. */
export async function takeChannels(server) {
  await load();
  const told = { closed: 0, failed: [] };
  const staticKey = await KeyPair.generate();
  takeWebSockets(server, async (socket, url) => {
    const path = url.slice(url.lastIndexOf('/') + 1);
    socket.addEventListener('close', () => { told.closed += 1; });
    if (path.startsWith('handshake-')) {
      socket.addEventListener('message', () => FAULTS[path.slice(10)](socket), { once: true });
      return;
    }
    try {
      const channel = await NoiseSocket.open(socket, { ...OPTIONS, responder: path !== 'echo-responder', staticKey });
      if (FAULTS[path]) FAULTS[path](socket);
      else {
        for await (const payload of channel) await channel.send(payload);
        await channel.close();
      }
    } catch (error) {
      told.failed.push(`${path}: ${error.stack}`);
    }
  });
  return told;
}
