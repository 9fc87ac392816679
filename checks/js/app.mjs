// A program that bundlers take: both parties of a channel in one page, and what came through it.
import { KeyPair, NoiseSocket, load } from 'yulimosar';

async function run() {
  await load();
  const [up, down] = [new TransformStream(), new TransformStream()];
  const [client, server] = [await KeyPair.generate(), await KeyPair.generate()];
  const same = (key) => (got) => got.toString() === key.publicKey.toString();
  const [a, b] = await Promise.all([
    NoiseSocket.open({ readable: down.readable, writable: up.writable }, {
      pattern: 'XX', staticKey: client, verify: same(server),
    }),
    NoiseSocket.open({ readable: up.readable, writable: down.writable }, {
      pattern: 'XX', responder: true, staticKey: server, verify: same(client),
    }),
  ]);
  const sending = a.send(new TextEncoder().encode('bundled')).then(() => a.end());
  const parts = [];
  for await (const payload of b) parts.push(new TextDecoder().decode(payload));
  await sending;
  return parts.join();
}
globalThis.outcome = run();
globalThis.outcome.then(console.log);
