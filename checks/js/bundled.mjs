// Runs bundles in headless Chromium: node bundled.mjs FOLDER FILE.., each of which puts a promise of a text to
// globalThis.outcome. Prints FILE and the text.
import { writeFile } from 'node:fs/promises';
import { join } from 'node:path';
import { Browser } from '../web/browser.mjs';
import { serve } from '../web/server.mjs';

const [folder, ...files] = process.argv.slice(2);
const server = await serve(folder);
const browser = await Browser.start();
for (const file of files) {
  await writeFile(
    join(folder, 'index.html'), `<!doctype html><title>bundle</title><script type="module" src="${file}"></script>`,
  );
  await browser.open(server.url);
  await browser.until('globalThis.outcome !== undefined');
  console.log(`${file}: ${await browser.evaluate('globalThis.outcome')}`);
}
await browser.close();
server.close();
