// server.mjs: the responder. It takes connections on 127.0.0.1, port 4043, of the client whose key is in client.public,
// and sends back what it reads.
import { readFile } from 'node:fs/promises';
import { createServer } from 'node:net';
import { KeyPair, NoiseSocket, load } from 'yulimosar';

await load();
const staticKey = await KeyPair.fromSecret(await readFile('server.key'));
const client = await readFile('client.public');

/** @param {import('node:net').Socket} socket */
async function serve(socket) {
  const channel = await NoiseSocket.open(socket, {
    pattern: 'XX',
    responder: true,
    prologue: new TextEncoder().encode('echo 1'),
    staticKey,
    verify: (remoteStatic) => client.equals(remoteStatic),    // with many clients, whether their list has this key
    signal: AbortSignal.timeout(30000),    // the handshake takes 30 seconds at most
  });
  try {
    for await (const payload of channel) await channel.send(payload);    // until the client has ended its stream
    await channel.close();    // ends the server's
  } finally {
    channel.destroy();    // after an error: without the end, which would say that all was sent
  }
}

const server = createServer((socket) => {
  // Without the catch a client that is refused ends the program.
  serve(socket).catch((error) => console.error(`server: ${error.message}`));
});
server.listen(4043, '127.0.0.1', () => console.log('server: listening'));
