// The package as a program in TypeScript uses it. It is only checked, against the package's types, and never run.
import {
  CipherState, Code, Connection, DH, Datagrams, Handshake, HandshakeOptions, KeyPair, NoiseError, NoiseSocket,
  NoiseSocketOptions, Opener, Sealer, Transport, checkPattern, equal, hasMemory64, hex, layout, load, protocolName,
} from 'yulimosar';

await load();
await load(new URL('https://example.org/noise_c.wasm'));
await load(new Uint8Array(8));
const isWide: boolean = hasMemory64();
console.log(isWide);
const staticKey: KeyPair = await KeyPair.generate();
const fromBytes: KeyPair = await KeyPair.fromSecret(new Uint8Array(32).fill(7));
console.log(fromBytes.publicKey.length);
const handshake = new Handshake({ pattern: protocolName('XX'), staticKey, psks: [new Uint8Array(32)] });
const late = new Handshake({
  pattern: 'XXpsk3', responder: true, staticKey, pskFor: async (remoteStatic) => remoteStatic.slice(0, 32),
});
late.dispose();
const message: Uint8Array = await handshake.write(new Uint8Array(3));
try {
  await handshake.read(message);
} catch (error) {
  if (error instanceof NoiseError && error.code === 'NOISE_TAG') console.log(error.token, error.cause);
}
const transport: Transport = handshake.finish({ interval: 3 });
const [sender, receiver]: [Sealer, Opener] = transport.split();
receiver.open(sender.seal(message));
const datagrams: Datagrams = handshake.finishDatagrams({ window: 64 });
console.log(datagrams.nonce + 1n);
const [sealer] = datagrams.split();
console.log(sealer.nonce + 1n, sealer.seal(message));
const { send, receive, hash } = handshake.finishCiphers();
const cipher: CipherState = receive;
cipher.nonce = 5n;
cipher.decryptWithAd(hash, send.encryptWithAd(hash, message));
cipher.rekey();
const key: DH = { publicKey: new Uint8Array(32), agree: (remote) => remote };
const options: HandshakeOptions = { pattern: 'XX', staticKey: key };
const more: NoiseSocketOptions = { ...options, acceptAnyKey: true };
console.log(more.interval);
const verdict = checkPattern('NN:\n  -> e\n');
if (verdict.valid) console.log(verdict.messages);
else if ('rule' in verdict) console.log(verdict.token);
else console.log(verdict.line);
console.log(layout('XX').messages[0].pieces[0].kind);
const { readable, writable } = new TransformStream<Uint8Array, Uint8Array>();
const channel = await NoiseSocket.open({ readable, writable }, { pattern: 'XX', verify: (key) => key.length === 32 });
for await (const payload of channel) await channel.send(payload);
await channel.end();
await channel.close({ timeout: 100 });
await NoiseSocket.open(new WebSocket('wss://example.org/'), {
  pattern: 'NN', acceptAnyKey: true, signal: new AbortController().signal, handshakeLimit: 100, backlog: 1 << 20,
});
await channel.send(new Uint8Array(1 << 20), { signal: new AbortController().signal });
const got: Uint8Array | undefined = await channel.receive({ signal: new AbortController().signal });
await channel.flush();
await channel.readable.pipeTo(new WritableStream<Uint8Array>());
await new Blob([]).stream().pipeTo(channel.writable);
console.log(equal(channel.hash, hash), hex(got ?? hash).length);
channel.duplex.setTimeout(1000).end('text').destroy();
const isFinished: boolean = channel.duplex.writableFinished && channel.duplex.allowHalfOpen;
console.log(isFinished);
// @ts-expect-error: no such property
console.log(channel.duplex.writableFinish);
const name: Code = 'NOISE_CUT';
console.log(name, new NoiseError(name).number);
declare const refused: NoiseError;
// @ts-expect-error: no such code
console.log(refused.code === 'NOISE_CUTT');
// @ts-expect-error: no such code
console.log(new NoiseError('NOISE_GONE'));
// @ts-expect-error: codes are texts
console.log(refused.code === 16);
declare const connection: Connection;
await NoiseSocket.open(connection, more);
declare const kept: CryptoKeyPair;
const again: KeyPair = await KeyPair.from(kept);
console.log(again);
declare global { interface SymbolConstructor { readonly asyncDispose: unique symbol } }    // as of TypeScript 5.2
const disposed: Promise<void> = channel[Symbol.asyncDispose]();
await disposed;
// @ts-expect-error: other calls make them
console.log(new KeyPair());
// @ts-expect-error: other calls make them
console.log(new NoiseSocket());
// @ts-expect-error: other calls make them
console.log(new CipherState());
// @ts-expect-error: a text isn't bytes
await channel.send('text');
// @ts-expect-error: numbers aren't bytes
send.encryptWithAd(1, 2);
// @ts-expect-error: no such option
await NoiseSocket.open({ readable, writable }, { pattern: 'NN', acceptAnyKeys: true });
// @ts-expect-error: no window of 65
handshake.finishDatagrams({ window: 65 });
// @ts-expect-error: the half that opens doesn't seal
receiver.seal(message);
