// Puts the listings of pages to files: node listings.mjs FOLDER PAGE... One whose first line is a comment that begins
// with a name is that file; the others are parts of programs, and get the names that they import.
import { readFile, writeFile } from 'node:fs/promises';
import { join } from 'node:path';

// The types of Debian's TypeScript lack it.
const TIMEOUT =
  '/** @type {{ timeout(milliseconds: number): AbortSignal }} */ (/** @type {unknown} */ (AbortSignal)).timeout';
const IMPORTS = [
  "import { createHash } from 'node:crypto';",
  "import { createReadStream, createWriteStream } from 'node:fs';",
  "import { readFile } from 'node:fs/promises';",
  "import { connect } from 'node:net';",
  "import { pipeline } from 'node:stream/promises';",
  "import { WebSocketServer } from 'ws';",
  "import { Handshake, NoiseSocket, equal, hex } from 'yulimosar';",
].map((line) => `${line}\n`).join('');

const [folder, ...pages] = process.argv.slice(2);
const texts = await Promise.all(pages.map((page) => readFile(page, 'utf8')));
const listings = [...texts.join('').matchAll(/^```js\n(.*?)^```$/gmsu)].map(([, listing]) => listing);
for (const [n, text] of listings.entries()) {
  const listing = text.replaceAll('AbortSignal.timeout', TIMEOUT);
  const name = /^\/\/ ([a-z]+\.mjs):/u.exec(listing)?.[1];
  const isWhole = /^import /mu.test(listing);
  await writeFile(join(folder, name ?? `part-${n}.mjs`), isWhole ? listing : `${IMPORTS}${listing}`);
}
console.log(listings.length);
