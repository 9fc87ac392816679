// Prints how many milliseconds of processor time it takes to read 64,000 frames of 19 bytes that came in one chunk: the
// least of three times.
import { Handshake, NoiseSocket, load } from '../noise.mjs';

const COUNT = 64000;

await load();
const handshake = new Handshake({ pattern: 'NN', responder: true });
const there = new TransformStream();
let give;
const readable = new ReadableStream({ start: (controller) => { give = (chunk) => controller.enqueue(chunk); } });
const opening = NoiseSocket.open({ readable, writable: there.writable }, { pattern: 'NN', acceptAnyKey: true });
const { value } = await there.readable.getReader().read();
await handshake.read(value.subarray(2));
const answer = await handshake.write();
give(Uint8Array.of(0, answer.length, ...answer));
const [channel, transport] = [await opening, handshake.finish()];

async function read() {
  const chunk = new Uint8Array(COUNT * 19);
  for (let n = 0; n < COUNT; n += 1) {
    chunk.set([0, 17], 19 * n);
    chunk.set(transport.seal(Uint8Array.of(n & 255)), 19 * n + 2);
  }
  give(chunk);
  const start = process.cpuUsage();
  for (let n = 0; n < COUNT; n += 1) {
    if ((await channel.receive())[0] !== (n & 255)) throw new Error(`another payload ${n}`);
  }
  const { user, system } = process.cpuUsage(start);
  return (user + system) / 1000;
}

const times = [await read(), await read(), await read()];
console.log(Math.min(...times));
