// What the package says in headless Chromium where it can't work: beside a module that was changed, or isn't there, and
// in a page that isn't a secure context, where WebCrypto is missing.
import assert from 'node:assert/strict';
import { cp, mkdtemp, readFile, rm, writeFile } from 'node:fs/promises';
import { tmpdir } from 'node:os';
import { join } from 'node:path';
import { fileURLToPath } from 'node:url';
import { Browser } from '../web/browser.mjs';
import { serve } from '../web/server.mjs';

const PACKAGE = fileURLToPath(new URL('../../bindings/js', import.meta.url));
/** A name that is this computer in the browser, and to which nothing is owed, unlike localhost. */
const PLAIN = 'noise.test';

const folder = await mkdtemp(join(tmpdir(), 'js-'));
const server = await serve(folder);
const browser = await Browser.start(`--host-resolver-rules=MAP ${PLAIN} 127.0.0.1`);

/** What becomes of a promise in a page, in which `noise` is the package of a folder. */
async function told(expression, url, name = 'whole') {
  await browser.open(`${url}index.html`);
  await browser.until(`document.title === 'here' && location.href.startsWith(${JSON.stringify(url)})`);
  return browser.evaluate(`import('/${name}/noise.mjs').then((noise) => ${expression}).then(
    (value) => 'value ' + value, ({ name, code, message }) => [name, code, message].join(' | '))`);
}

try {
  await writeFile(join(folder, 'index.html'), '<!doctype html><title>here</title>');
  for (const name of ['whole', 'changed', 'none']) {
    await cp(PACKAGE, join(folder, name), { recursive: true, filter: (it) => !/\/(out|test)$/u.test(it) });
  }
  const module = await readFile(join(PACKAGE, 'noise_c.wasm'));
  module[module.length - 1] ^= 1;
  await writeFile(join(folder, 'changed/noise_c.wasm'), module);
  await rm(join(folder, 'none/noise_c.wasm'));

  const key = 'noise.KeyPair.generate()).then(({ publicKey }) => publicKey.length)';
  assert.equal(await told(`noise.load().then(() => ${key}`, server.url), 'value 32');
  assert.match(await told('noise.load()', server.url, 'changed'), /isn't the module that this package was made with/u);
  assert.match(await told('noise.load()', server.url, 'none'), /404/u);

  const plain = server.url.replace('127.0.0.1', PLAIN);
  assert.equal(await told('Promise.resolve(isSecureContext)', plain), 'value false');
  assert.equal(await told('noise.load()', plain), 'value undefined');
  const unsupported = /^NoiseError \| NOISE_UNSUPPORTED \| .*secure context, https or http:\/\/localhost$/u;
  assert.match(await told('noise.KeyPair.generate()', plain), unsupported);
  assert.match(await told('noise.KeyPair.fromSecret(new Uint8Array(32))', plain), unsupported);
  assert.match(
    await told("noise.load().then(() => new noise.Handshake({ pattern: 'NN' }).write())", plain), unsupported,
  );
  console.log('js: in Chromium a changed module, a missing one, and a page that is no secure context are refused');
} finally {
  await browser.close();
  server.close();
  await rm(folder, { recursive: true, force: true });
}
