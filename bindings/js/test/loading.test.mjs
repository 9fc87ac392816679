// How the module is loaded. The steps share what is loaded, so their order counts.
import test from 'node:test';
import assert from 'node:assert/strict';
import { spawnSync } from 'node:child_process';
import { cp, mkdtemp, readFile, rm, writeFile } from 'node:fs/promises';
import { tmpdir } from 'node:os';
import { join } from 'node:path';
import { pathToFileURL } from 'node:url';
import { checkPattern, hasMemory64, load } from '../noise.mjs';
import { refused } from './connections.mjs';

const MEMORY64 = new URL('../../../dist/noise_c.wasm', import.meta.url);

/** What a program of its own prints, with these flags. */
function printed(script, flags = []) {
  const noise = JSON.stringify(new URL('../noise.mjs', import.meta.url).href);
  const { stdout, stderr } = spawnSync(
    process.execPath,
    [...flags, '--input-type=module', '-e', `const noise = await import(${noise}); ${script}`],
    { encoding: 'utf8' },
  );
  return stdout.trim() || stderr;
}

test('before load each call is refused', () => assert.throws(() => checkPattern('NN:\n'), refused('NOISE_NOT_LOADED')));

test('what is no module, or no file, is refused, and load can be tried again', async () => {
  await assert.rejects(load(new Uint8Array(8)), WebAssembly.CompileError);
  await assert.rejects(load(Uint8Array.of(0, 97, 115, 109, 1, 0, 0, 0)), /version 1/u);
  await assert.rejects(load('nothing.wasm'), { code: 'ENOENT' });
  await assert.rejects(load('http://127.0.0.1:1/noise_c.wasm'), TypeError);
  assert.throws(() => checkPattern('NN:\n'), refused('NOISE_NOT_LOADED'));
});

test('a module that was changed is refused, and one that is passed by its address isn’t compared', async () => {
  const folder = await mkdtemp(join(tmpdir(), 'js-'));
  try {
    await cp(new URL('..', import.meta.url), folder, { recursive: true, filter: (it) => !/\/(out|test)$/u.test(it) });
    const file = join(folder, 'noise_c.wasm');
    const bytes = await readFile(file);
    bytes[bytes.length - 1] ^= 1;    // of the data: it compiles
    await writeFile(file, bytes);
    const changed = await import(pathToFileURL(join(folder, 'noise.mjs')).href);
    await assert.rejects(changed.load(), /noise_c\.wasm isn't the module that this package was made with/u);
    await assert.rejects(changed.load(), /another/u);
    await changed.load(pathToFileURL(file));
  } finally {
    await rm(folder, { recursive: true });
  }
});

test('without WebCrypto, or without its X25519, each call says so', () => {
  const unsupported = /^NOISE_UNSUPPORTED .*a secure context, https or http:\/\/localhost/u;
  const calls = [
    'noise.KeyPair.generate()', 'noise.KeyPair.fromSecret(new Uint8Array(32))',
    'noise.load().then(() => new noise.Handshake({ pattern: "NN" }).write())',
  ];
  const without = [
    'Object.defineProperty(globalThis, "crypto", { value: undefined });',
    'Object.defineProperty(globalThis, "crypto", { value: { getRandomValues: () => {} } });',
    `const refuse = async () => { throw new DOMException("Unrecognized name.", "NotSupportedError"); };
     Object.defineProperty(globalThis, "crypto", { value: { subtle: { generateKey: refuse, importKey: refuse } } });`,
  ];
  for (const change of without) {
    for (const call of calls) {
      const said = printed(`${change} await ${call}.catch(({ code, message }) => console.log(code, message))`);
      assert.match(said, unsupported, `${change} ${call}`);
    }
  }
});

test('Node loads the module without a flag, also by its address or its bytes', async () => {
  const file = `new URL("noise_c.wasm", ${JSON.stringify(new URL('../', import.meta.url).href)})`;
  for (const source of ['', '"noise_c.wasm"', file, `await (await import("node:fs/promises")).readFile(${file})`]) {
    assert.equal(
      printed(`await noise.load(${source}); console.log(noise.checkPattern("NN:\\n  -> e\\n  <- e, ee\\n").messages)`),
      '2',
      source,
    );
  }
});

test('a module with 64-bit memory is loaded where the engine has that', () => {
  const said = printed(
    `await noise.load(${JSON.stringify(MEMORY64.href)})
      .then(() => console.log("loaded"), ({ name }) => console.log(name));
    console.log(noise.hasMemory64())`,
  );
  assert.match(said, /^(loaded\ntrue|CompileError\nfalse)$/u);
});

test(
  'without 128-bit vectors load says so',
  { skip: process.arch !== 'x64' || !process.versions.node.startsWith('20.') },
  () => {
    // as an old processor
    const said = printed('await noise.load().catch(({ name, message }) => console.log(name, message))', [
      '--no-enable-sse4-1',
    ]);
    assert.match(said, /^CompileError .*SIMD/u);
  },
);

test('calls at once load one module', async () => {
  await Promise.all([load(), load(), load(await readFile(new URL('../noise_c.wasm', import.meta.url)))]);
  await load('nothing.wasm');    // it is loaded
  assert.deepEqual(checkPattern('NN:\n  -> e\n  <- e, ee\n'), { valid: true, messages: 2 });
  assert.equal(typeof hasMemory64(), 'boolean');
});
