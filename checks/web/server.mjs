// A server of the files of one folder, on 127.0.0.1: at its top, or below a path.
import { createServer } from 'node:http';
import { readFile } from 'node:fs/promises';
import { extname, join, normalize } from 'node:path';

const TYPES = {
  '.html': 'text/html', '.json': 'application/json', '.css': 'text/css', '.mjs': 'text/javascript',
  '.wasm': 'application/wasm',
};

export async function serve(folder, below = '') {
  const server = createServer(async ({ url }, answer) => {
    const whole = normalize(decodeURIComponent(new URL(url, 'http://localhost').pathname));
    const path = whole.startsWith(`/${below}`) ? `/${whole.slice(below.length + 1)}` : '/none';
    if (whole === '/favicon.ico') {
      answer.writeHead(204).end();
      return;
    }
    try {
      const file = await readFile(join(folder, path.endsWith('/') ? `${path}index.html` : path));
      answer.writeHead(200, { 'content-type': TYPES[extname(path)] ?? 'text/html' }).end(file);
    } catch {
      answer.writeHead(404).end();
    }
  });
  await new Promise((resolve) => { server.listen(0, '127.0.0.1', resolve); });
  return { server, url: `http://127.0.0.1:${server.address().port}/`, close: () => {
    server.closeAllConnections();
    server.close();
  } };
}
