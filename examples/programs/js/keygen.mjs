// keygen.mjs: node keygen.mjs NAME makes NAME.key, 32 secret bytes that stay on this machine, and NAME.public, the key
// that the other party gets.
import { randomBytes } from 'node:crypto';
import { writeFile } from 'node:fs/promises';
import { KeyPair } from 'yulimosar';

const [name] = process.argv.slice(2);
if (!name) throw new Error('usage: node keygen.mjs NAME');
const secret = randomBytes(32);
const { publicKey } = await KeyPair.fromSecret(secret);
await writeFile(`${name}.key`, secret, { mode: 0o600, flag: 'wx' });    // x: a key that is there isn't overwritten
await writeFile(`${name}.public`, publicKey);
console.log(`${name}: the public key is ${Buffer.from(publicKey).toString('hex')}`);
