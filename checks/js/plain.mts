// The package in a program whose types have neither the DOM nor Node: it is only checked, and never run.
import { Connection, KeyPair, NoiseError, NoiseSocket, NodeStream, load } from 'yulimosar';

await load({ href: 'https://example.org/noise_c.wasm' });
const staticKey: KeyPair = await KeyPair.generate();
declare const socket: NodeStream;
declare const connection: Connection;
const channel = await NoiseSocket.open(socket, { pattern: 'XX', staticKey, verify: (key) => key.length === 32 });
await channel.send(new Uint8Array(3));
for await (const payload of channel) if (payload.length > 3) break;
for await (const payload of channel.readable) if (payload.length > 3) break;
const port: number | undefined = channel.duplex.remotePort;
await channel.send(new Uint8Array(port ?? 0));
// @ts-expect-error: no such property
await channel.duplex.remotePorts;
// @ts-expect-error: no such option
await NoiseSocket.open(connection, { patern: 'XX' });
// @ts-expect-error: no connection
await NoiseSocket.open('example.org', { pattern: 'NN', acceptAnyKey: true }).catch((error: NoiseError) => error.code);
