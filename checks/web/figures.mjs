// What the page and the module take in Chromium. These are printed, and nothing fails by them: how fast a machine is,
// and what else it does, differs. Of several runs the faster half counts. How many bytes the page has is demanded.
import assert from 'node:assert/strict';
import { gzipSync } from 'node:zlib';

const TYPING = `const it = document.getElementById('text'); const start = performance.now();
  for (let n = 0; n < 50; n += 1) {
    it.value = 'MINE:\\n  -> e, s\\n  <- e, ee, se\\n'.slice(0, 6 + n % 30);
    it.dispatchEvent(new Event('input'));
  }
  return (performance.now() - start) / 50;`;

/**
 * How long it takes from a key to the frame after it is drawn: the median of 20, of which each waits for the next frame
 * of the screen.
 */
const PAINTING = `const it = document.getElementById('text'); const times = [];
  for (let n = 0; n < 20; n += 1) {
    const start = performance.now();
    it.value = 'MINE:\\n  -> e, s\\n  <- e, ee, se\\n'.slice(0, 8 + n); it.dispatchEvent(new Event('input'));
    await new Promise((done) => requestAnimationFrame(() => {
      const { port1, port2 } = new MessageChannel();
      port1.onmessage = done;
      port2.postMessage(0);
    }));
    times.push(performance.now() - start);
  }
  return times.sort((x, y) => x - y)[10];`;

/** Keys at a fourth of the processor: the median, in milliseconds, until what came of one is painted. */
async function slowKeys(browser, text) {
  const run = (work) => browser.evaluate(`(async () => { ${work} })()`);
  await run(`const it = document.getElementById('text'); it.value = ${JSON.stringify(text)};
    it.dispatchEvent(new Event('input')); it.focus(); it.setSelectionRange(8, 8); globalThis.keys = []; let start;
    it.addEventListener('keydown', ({ timeStamp }) => { start = timeStamp; });
    it.addEventListener('input', () => requestAnimationFrame(() => {
      const { port1, port2 } = new MessageChannel();
      port1.onmessage = () => keys.push(performance.now() - start);
      port2.postMessage(0);
    }));`);
  await browser.send('Emulation.setCPUThrottlingRate', { rate: 4 });
  for (const [n, key] of [...'e, es, ee, ss'].entries()) {
    for (const type of ['keyDown', 'keyUp']) {
      await browser.send('Input.dispatchKeyEvent', { type, key, ...(type === 'keyDown' ? { text: key } : {}) });
    }
    await browser.until(`keys.length > ${n}`);
  }
  await browser.send('Emulation.setCPUThrottlingRate', { rate: 1 });
  return run('return keys.sort((x, y) => x - y)[keys.length >> 1];');
}

// Both parties of XX, and six times what WebCrypto takes for one result of X25519: a key imported, and bits derived.
// The last 200 of 400: in the first ones the engine compiles what runs often.
const RATIO = `const { Handshake, KeyPair, protocolName } = await import('../bindings/js/noise.mjs');
  const name = 'X25519';
  const pair = async () => {
    const { privateKey, publicKey } = await crypto.subtle.generateKey({ name }, false, ['deriveBits']);
    return { privateKey, bytes: await crypto.subtle.exportKey('raw', publicKey) };
  };
  const agree = async (own, other) => {
    const key = await crypto.subtle.importKey('raw', other.bytes, { name }, true, []);
    return new Uint8Array(await crypto.subtle.deriveBits({ name, public: key }, own.privateKey, 256));
  };
  const pattern = protocolName('XX'); const ends = []; const curve = [];
  for (let n = 0; n < 400; n += 1) {
    const [a, b] = await Promise.all([pair(), pair()]);
    const [c, d, e, f] = await Promise.all([0, 1, 2, 3].map(() => KeyPair.generate()));
    let start = performance.now();
    for (let k = 0; k < 3; k += 1) { await agree(a, b); await agree(b, a); }
    curve.push(performance.now() - start);
    start = performance.now();
    const i = new Handshake({ pattern, staticKey: c, ephemeralKey: d });
    const r = new Handshake({ pattern, responder: true, staticKey: e, ephemeralKey: f });
    await r.read(await i.write()); await i.read(await r.write()); await r.read(await i.write());
    i.finish().dispose(); r.finish().dispose();
    ends.push(performance.now() - start);
  }
  const mean = (times) => times.slice(200).sort((x, y) => x - y).slice(0, 100).reduce((x, y) => x + y) / 100;
  return mean(ends) / mean(curve);`;

const SEALING = `const { Handshake, protocolName } = await import('../bindings/js/noise.mjs');
  const pattern = protocolName('NN');
  const [i, r] = [new Handshake({ pattern }), new Handshake({ pattern, responder: true })];
  await r.read(await i.write()); await i.read(await r.write());
  const [transport, payload] = [i.finish(), new Uint8Array(16384)];
  for (let n = 0; n < 400; n += 1) transport.seal(payload);
  const times = [];
  for (let k = 0; k < 20; k += 1) {
    const start = performance.now();
    for (let n = 0; n < 40; n += 1) transport.seal(payload);
    times.push(performance.now() - start);
  }
  return 10 * 40 * 16384 / times.sort((x, y) => x - y).slice(0, 10).reduce((x, y) => x + y) / 1e3;`;

/** How many bytes the page has, compressed: all that a first visit loads, with the module and what a run loads. */
export async function weight(page) {
  await page.open();
  const names = await page.evaluate(
    `[location.href.split('#')[0], ...performance.getEntriesByType('resource').map(({ name }) => name)]`,
  );
  const sizes = await Promise.all(
    [...new Set(names)].map(
      async (name) => gzipSync(Buffer.from(await (await fetch(name)).arrayBuffer()), { level: 9 }).length,
    ),
  );
  const sum = sizes.reduce((a, b) => a + b, 0);
  assert.ok(sum <= 160e3, `the page has ${sum} bytes`);
  return `the page has ${(sum / 1000).toFixed(0)} KB in ${sizes.length} files, compressed`;
}

export async function figures(browser, open) {
  const run = (work) => browser.evaluate(`(async () => { ${work} })()`);
  const loads = [];
  for (let n = 0; n < 5; n += 1) {
    await open();
    loads.push(await browser.evaluate('noisePage.firstVerdict'));
  }
  const [first, key, paint, ratio, rate] = [
    loads.sort((x, y) => x - y)[2], await run(TYPING), await run(PAINTING), await run(RATIO), await run(SEALING),
  ];
  const slow = [];
  for (const text of ['XX:\n  -> e\n  <- e, ee, s, es\n  -> s, se\n', `MINE:\n${'  -> e, ee\n'.repeat(199)}`]) {
    await open();
    slow.push(await slowKeys(browser, text));
  }
  return `first verdict ${first.toFixed(0)} ms after the page is asked for, ${key.toFixed(2)} ms a key, `
    + `${paint.toFixed(0)} ms until it is painted; at a fourth of the processor ${slow[0].toFixed(0)} ms, `
    + `and ${slow[1].toFixed(0)} in a text of 200 lines; `
    + `both parties of XX ${ratio.toFixed(2)} times six results of X25519, sealing 16 KiB ${rate.toFixed(0)} MB/s`;
}
