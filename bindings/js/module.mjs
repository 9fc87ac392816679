// The WebAssembly module: how it is loaded, and where its structs are. It has 32-bit memory or 64-bit.
import { NoiseError, must } from './codes.mjs';
import { ofNumbers } from './numbers.mjs';

const SCRATCH = {
  name: 512,
  prologue: 65536,
  payload: 65536,
  message: 65552,
  result: 56,
  setup: 422,
  answer: 32,
  key: 33,
  number: 16,
  info: 95,
  layout: 140,
};
const PAGE = 65536;
/** The SHA-384 of noise_c.wasm, as `integrity` of a browser has it: `bindings/js/modules pin` writes it. */
const INTEGRITY = 'sha384-ZmFcB49U5C4HC6ZUVy5Xol41J9UzBe0NwTWLQdG6MyLanvm3JC9qBVHYb1QrTTyZ';
/** The major version of the library. */
const VERSION = 1;

/** An instance, and the places in its memory: `at` for what one call needs, `take` and `free` for its structs. */
class Library {
  #bytes;
  #data;

  constructor(memory, calls) {
    this.x = calls;
    this.memory = memory;
    this.sizes = {
      handshake: this.x.noise_handshake_size(),
      sender: this.x.noise_sender_size(),
      receiver: this.x.noise_receiver_size(),
      streamSender: this.x.noise_stream_sender_size(),
      streamReceiver: this.x.noise_stream_receiver_size(),
      datagramSender: this.x.noise_datagram_sender_size(),
      datagramReceiver: this.x.noise_datagram_receiver_size(),
      cipher: this.x.noise_cipher_size(),
    };
    this.unused = Object.fromEntries(Object.keys(this.sizes).map((kind) => [kind, []]));
    this.next = this.memory.buffer.byteLength;
    this.end = this.next;
    this.#see();
    this.at = Object.fromEntries(Object.entries(SCRATCH).map(([name, size]) => [name, this.#place(size)]));
  }

  #place(size) {
    const place = this.next;
    const next = place + ((size + 15) & ~15);
    const pages = Math.ceil((next - this.end) / PAGE);
    if (pages > 0) {
      this.#grow(pages);
      this.end += pages * PAGE;
      this.#see();
    }
    this.next = next;
    return place;
  }

  /**
   * A 32-bit memory takes a number, and so does a 64-bit one of Node 20; that of the final proposal takes a BigInt.
   */
  #grow(pages) {
    try {
      this.memory.grow(pages);
    } catch (error) {
      if (!(error instanceof TypeError)) throw error;
      this.memory.grow(BigInt(pages));
    }
  }

  /**
   * Takes views of the whole memory: those that were taken before it grew see nothing any more. Only JavaScript
   * makes it grow.
   */
  #see() {
    this.#bytes = new Uint8Array(this.memory.buffer);
    this.#data = new DataView(this.memory.buffer);
  }

  /** The bytes at a place. The view holds until the next call of `take`. */
  view(place, size) {
    return this.#bytes.subarray(place, place + size);
  }

  /** The size at a place, which has 8 bytes. */
  size(place) {
    return this.#data.getUint32(place, true) + 2 ** 32 * this.#data.getUint32(place + 4, true);
  }

  /** Copies bytes to a place of one call, and gives the place and the length as the exports take them. */
  put(name, bytes) {
    if (bytes.length > SCRATCH[name]) throw new NoiseError(name === 'message' ? 'NOISE_TOO_LONG' : 'NOISE_LENGTH');
    this.#bytes.set(bytes, this.at[name]);
    return [this.at[name], bytes.length];
  }

  /** Copies bytes to a place of one call, behind so many others. */
  fill(name, behind, bytes) {
    this.#bytes.set(bytes, this.at[name] + behind);
  }

  wipe(name, size = SCRATCH[name]) {
    const start = this.at[name];
    this.#bytes.fill(0, start, start + size);
  }

  /** A place for an opaque struct. */
  take(kind) {
    return this.unused[kind].pop() ?? this.#place(this.sizes[kind]);
  }

  /** Overwrites an opaque struct, and lets its place be taken again. */
  free(kind, place) {
    this.view(place, this.sizes[kind]).fill(0);
    this.unused[kind].push(place);
  }

  /**
   * What the last call has returned besides its code. Both numbers of 8 bytes are places in a message, below 2^32.
   */
  result() {
    const start = this.at.result;
    return {
      from: this.#data.getUint32(start, true),
      len: this.#data.getUint32(start + 8, true),
      token: this.#bytes[start + 16],
      ofStatic: this.#bytes[start + 17],
      remoteKnown: this.#bytes[start + 50] !== 0,
    };
  }

  /** The same of a call on a stream or on a frame. */
  streamResult() {
    const start = this.at.result;
    const number = (at) => this.#data.getUint32(start + at, true);
    return { from: number(0), len: number(8), used: number(16), wanted: number(24) };
  }

  /** The other party's public key for which the last call needs a result of X25519, or a psk. */
  wanted() {
    return this.view(this.at.result + 18, 32).slice();
  }

  /** The 32 bytes that a call writes to its last pointer. */
  hash(call, place) {
    must(call(place, this.at.answer));
    return this.view(this.at.answer, 32).slice();
  }

  /** The number of 8 bytes that a call writes to its last pointer. */
  nonce(call, place) {
    must(call(place, this.at.number));
    return this.#data.getBigUint64(this.at.number, true);
  }

  /** The public key that a call writes to its last pointer, or undefined where it isn't known. */
  key(call, place) {
    must(call(place, this.at.key));
    const key = this.view(this.at.key, 33);
    return key[0] === 0 ? undefined : key.slice(1);
  }
}

let loaded;
let loading;

/** The library that `load` has made. */
export function library() {
  if (!loaded) throw new NoiseError('NOISE_NOT_LOADED');
  return loaded;
}

const forgotten = new FinalizationRegistry((places) => {
  for (const [kind, place] of places) loaded.free(kind, place);
});

/** Frees places, each with its kind, once nobody has an object any more, unless it lets go of them before. */
export function freeLater(object, places) {
  forgotten.register(object, places, object);
}

export function letGo(object) {
  forgotten.unregister(object);
}

/** A module of Node, without an import that a bundler for browsers would follow. */
const ofNode = (name) => globalThis.process.getBuiltinModule(name);

const changed = (url) => new Error(`${url} isn't the module that this package was made with: its SHA-384 is another`);

/** The bytes of a file. Where a sum is passed, they have to have it. */
async function read(url, integrity) {
  const bytes = await ofNode('fs/promises').readFile(url);
  const sum = () => `sha384-${ofNode('crypto').createHash('sha384').update(bytes).digest('base64')}`;
  if (integrity && sum() !== integrity) throw changed(url);
  return bytes;
}

/** The answer of a server. Where a sum is passed, the browser compares it, and doesn't say what has failed. */
async function fetched(url, integrity) {
  if (!integrity) return fetch(url);
  try {
    return await fetch(url, { integrity });
  } catch (error) {
    const answer = await fetch(url).catch(() => { throw error; });
    if (answer.ok) throw changed(url);
    return answer;
  }
}

async function instanceOf(source, integrity) {
  if (source instanceof ArrayBuffer || ArrayBuffer.isView(source)) return WebAssembly.instantiate(source, {});
  const url = new URL(source, import.meta.url);
  if (url.protocol === 'file:' && globalThis.process?.getBuiltinModule) {
    return WebAssembly.instantiate(await read(url, integrity), {});
  }
  const answer = await fetched(url, integrity);
  if (!answer.ok) throw new Error(`${url}: ${answer.status} ${answer.statusText}`);
  // A server that doesn't know the type of .wasm takes part too.
  const isTyped = answer.headers.get('content-type') === 'application/wasm';
  return isTyped
    ? WebAssembly.instantiateStreaming(answer, {})
    : WebAssembly.instantiate(await answer.arrayBuffer(), {});
}

/**
 * Whether this engine runs WebAssembly with 64-bit memory, which the module that `load()` takes doesn't have: one
 * of nothing but such a memory is tried.
 */
export function hasMemory64() {
  return WebAssembly.validate(Uint8Array.of(0, 97, 115, 109, 1, 0, 0, 0, 5, 3, 1, 4, 1));
}

/** The library of a new instance, if it has the version that this package was written for. */
async function libraryOf(source) {
  const { instance } = source === undefined
    ? await instanceOf(new URL('noise_c.wasm', import.meta.url), INTEGRITY)
    : await instanceOf(source);
  if (instance.exports.noise_version?.() >>> 16 !== VERSION) {
    throw new Error(`the module isn't version ${VERSION} of the library`);
  }
  return new Library(instance.exports.memory, await ofNumbers(instance.exports));
}

/**
 * Loads the module, once: later calls do nothing. Without an argument it is noise_c.wasm beside this file, which
 * has 32-bit memory: one that was changed is refused. Of a source that is passed nothing is compared, and an address
 * that is relative counts from here. It throws what `fetch`, reading a file and
 * WebAssembly throw, as a CompileError for a module with 64-bit memory where the engine has none.
 * @param {string | { readonly href: string } | ArrayBuffer | ArrayBufferView} [source]
 * @returns {Promise<void>}
 */
export async function load(source) {
  loading ??= libraryOf(source);
  try {
    loaded = await loading;
  } catch (error) {
    loading = undefined;
    throw error;
  }
}
