// Channels over a WebSocketStream of headless Chromium, with ends in Node: an echo, and a page that reads slowly and
// makes the sender wait.
import assert from 'node:assert/strict';
import { NoiseSocket, load } from '../../bindings/js/noise.mjs';
import { Browser } from '../web/browser.mjs';
import { serve } from '../web/server.mjs';
import { webSockets } from './ws.mjs';

const NN = { pattern: 'NN', acceptAnyKey: true };
const COUNT = 640;    // payloads of 65519 bytes: 40 MB

/** What the page does: `(url) => a text`. */
const PAGE = `async (url) => {
  const { NoiseSocket, load } = await import('/bindings/js/noise.mjs');
  await load();
  const channel = await NoiseSocket.open(new WebSocketStream(url), { pattern: 'NN', acceptAnyKey: true });
  await channel.send(new Uint8Array(200000).fill(7));
  let back = 0;
  while (back < 200000) back += (await channel.receive()).length;
  await new Promise((resolve) => { setTimeout(resolve, 500); });
  let got = 0;
  for await (const { length } of channel) got += length;
  await channel.close();
  return back + ' and ' + got;
}`;

await load();
const { accept, url, close } = await webSockets();
const server = await serve('.');
const browser = await Browser.start();
await browser.open(`${server.url}bindings/js/package.json`);
await browser.until('document.readyState === "complete" && location.href.endsWith("package.json")');
if (await browser.evaluate('typeof WebSocketStream') === 'undefined') {
  console.log('js: left out: a channel over WebSocketStream: this Chromium has none');
} else {
  const accepted = accept();
  const outcome = browser.evaluate(`(${PAGE})(${JSON.stringify(url)})`);
  const channel = await NoiseSocket.open(await accepted, { ...NN, responder: true });
  for (let got = 0; got < 200000;) {
    const payload = await channel.receive();
    got += payload.length;
    await channel.send(payload);
  }
  const start = performance.now();
  for (let n = 0; n < COUNT; n += 1) await channel.send(new Uint8Array(65519));
  assert.ok(performance.now() - start > 300, 'the sender has not waited');
  await channel.close();
  assert.equal(await outcome, `200000 and ${COUNT * 65519}`);
  console.log(`js: ${COUNT * 65519 >> 20} MiB over a WebSocketStream of Chromium to a page that reads late`);
}
await browser.close();
server.close();
close();
