// Prints how many milliseconds a first connection by XX over TCP takes, with both parties in this program: the least,
// and the one in the middle; and the least within memory. One is from the call of `connect` until a payload has come
// back and both streams are ended.
import { once } from 'node:events';
import { connect, createServer } from 'node:net';
import { KeyPair, NoiseSocket, load } from '../noise.mjs';
import { pair } from './connections.mjs';

await load();
const [client, own] = [await KeyPair.generate(), await KeyPair.generate()];
async function serve(socket) {
  const channel = await NoiseSocket.open(socket, {
    pattern: 'XX',
    responder: true,
    staticKey: own,
    acceptAnyKey: true,
  });
  for await (const payload of channel) await channel.send(payload);
  await channel.close();
}
const server = createServer(serve).listen(0, '127.0.0.1');
await once(server, 'listening');

const byTcp = () => connect(server.address().port, '127.0.0.1');
function inMemory() {
  const [near, far] = pair({ highWaterMark: 1e6 }, { highWaterMark: 1e6 });
  serve(far);
  return near;
}

async function first(connected) {
  const start = performance.now();
  const channel = await NoiseSocket.open(connected(), { pattern: 'XX', staticKey: client, acceptAnyKey: true });
  await channel.send(Uint8Array.of(7));
  await channel.end();
  const got = await channel.receive();
  if (got?.length !== 1 || await channel.receive() !== undefined) throw new Error('another answer');
  const time = performance.now() - start;
  await channel.close();
  return time;
}

const [times, others] = [[], []];
for (let n = 0; n < 40; n += 1) {
  times.push(await first(byTcp));
  others.push(await first(inMemory));
}
for (const it of [times, others]) it.sort((one, two) => one - two);
console.log([times[0], times[20], others[0]].map((it) => it.toFixed(2)).join(' '));
server.close();
