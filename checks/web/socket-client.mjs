// Channels over the engine's own WebSocket, with the ends of socket-server.mjs: a browser and Node run this.
import { KeyPair, NoiseSocket, load, protocolName } from '../../bindings/js/noise.mjs';

export const OPTIONS = {
  pattern: protocolName('XXpsk3'), prologue: new TextEncoder().encode('sockets'), psks: [new Uint8Array(32).fill(7)],
  interval: 3,
};

/** What comes back of messages of several lengths, and after the end of them. */
async function echo(channel) {
  for (const length of [1, 1000, 65519]) {
    const sent = Uint8Array.from({ length }, (_, n) => n % 251);
    await channel.send(sent);
    const got = await channel.receive();
    if (got.length !== length || !got.every((byte, n) => byte === sent[n])) {
      return `other bytes came back, of ${length}`;
    }
  }
  await channel.send(new Uint8Array(65520));
  await channel.send(Uint8Array.of(1));
  const back = [await channel.receive(), await channel.receive(), await channel.receive()].map(({ length }) => length);
  await channel.end();
  return `${back}, and then ${await channel.receive()}`;
}

/** What comes of a received message, and of a message that is sent afterwards. */
async function receive(channel) {
  const got = await channel.receive();
  return got === undefined ? 'undefined' : `${got.length} bytes`;
}

/** Opens a channel to a path, and says what came of it. */
async function attempt(url, path) {
  const isEcho = path.startsWith('echo');
  const staticKey = await KeyPair.generate();
  let channel;
  try {
    channel = await NoiseSocket.open(new WebSocket(url + path), {
      ...OPTIONS, responder: path === 'echo-responder', staticKey,
    });
    return await (isEcho ? echo(channel) : receive(channel));
  } catch (error) {
    if (error.code === undefined) throw error;
    const after = channel && await channel.send(Uint8Array.of(1)).catch((it) => it.code);
    return after ? `${error.code}, and then ${after}` : error.code;
  } finally {
    await channel?.close();
  }
}

export async function attempts(url, paths) {
  await load();
  const outcomes = {};
  for (const path of paths) outcomes[path] = await attempt(url, path);
  return outcomes;
}
