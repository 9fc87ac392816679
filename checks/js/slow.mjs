// A slow reader at the end of a WebSocket of the package ws: all comes, and the sender waits meanwhile. And a
// stranger's message of 90 MiB isn't taken.
import assert from 'node:assert/strict';
import { once } from 'node:events';
import { NoiseSocket, load } from '../../bindings/js/noise.mjs';
import { webSockets } from './ws.mjs';

const SIZE = 65519;
const COUNT = 640;    // 40 MB
const NN = { pattern: 'NN', acceptAnyKey: true };

await load();
const { pair, close } = await webSockets();
const [near, far] = await pair();
const [a, b] = await Promise.all([
  NoiseSocket.open(near, NN), NoiseSocket.open(far, { ...NN, responder: true, backlog: 3 << 20 }),
]);
const payload = new Uint8Array(SIZE);
let [sent, got, most] = [0, 0, 0];
const sending = (async () => {
  for (let n = 0; n < COUNT; n += 1) {
    await a.send(payload);
    sent += SIZE;
    most = Math.max(most, sent - got);
  }
  await a.end();
})();
sending.catch(() => {});
await new Promise((resolve) => { setTimeout(resolve, 300); });
for await (const { length } of b) {
  got += length;
  if (got % (100 * SIZE) === 0) await new Promise((resolve) => { setTimeout(resolve, 20); });
}
await sending;
assert.equal(got, COUNT * SIZE);
assert.ok(most < 24 << 20, `${most} bytes on the way`);
await Promise.all([a.close(), b.close()]);

const [stranger, taken] = await pair();
const opened = NoiseSocket.open(taken, { ...NN, responder: true });
stranger.on('error', () => {});
if (stranger.readyState === 0) await once(stranger, 'open');
stranger.send(new Uint8Array(90 << 20));
await assert.rejects(
  opened, ({ code, cause }) => code === 'NOISE_CUT' && cause.code === 'WS_ERR_UNSUPPORTED_MESSAGE_LENGTH',
);
stranger.terminate();
close();
console.log(
  `js: ${got >> 20} MiB over a WebSocket of the package ws to a slow reader, `
    + `at most ${most >> 20} MiB of them on the way`,
);
