// Keeps the page for use without a network, as a service worker: what was loaded once is there again when the server
// isn't. With a network all comes from the server, and its parts past this worker, which would delay them.
const KEPT = 'noise-page';
const PAGES = ['./', 'rules.html', 'format.html', 'mistakes.html', 'style.css'];

/** How long what is kept isn't fetched anew, and how long a page has to load before that, in milliseconds. */
const AGE = 600e3;
const LOADING = 3e3;
/** When all was kept, and whether the server has answered when a page was last asked for. */
let keptAt = 0;
let isServed = false;

/** What the page consists of: its scripts name each other, so that no list of them has to be kept. */
async function keepAll() {
  keptAt = Date.now();
  const cache = await caches.open(KEPT);
  const seen = new Set();
  const keep = async (url) => {
    if (seen.has(url) || new URL(url).origin !== location.origin) return;
    seen.add(url);
    const answer = await fetch(url);
    if (!answer.ok) throw new Error(`${url}: ${answer.status}`);
    await cache.put(url, answer.clone());
    if (!/\.mjs$/.test(url) && !/\/(\w+\.html)?$/.test(url)) return;
    const named = /(?:from |import\(|href=|src=|[[,]\s+|\[)['"]((?:\.{1,2}\/)*[\w./-]+\.(?:mjs|html|css|wasm))['"]/g;
    const names = [...(await answer.text()).matchAll(named)];
    await Promise.all(names.map(([, name]) => keep(new URL(name, url).href).catch(() => {})));
  };
  await Promise.all(PAGES.map((page) => keep(new URL(page, location).href)));
}

/** Keeps all anew, if it is old, once the page that was asked for has had time to load. */
async function keepLater() {
  if (Date.now() - keptAt < AGE) return;
  keptAt = Date.now();
  await new Promise((done) => { setTimeout(done, LOADING); });
  await keepAll();
}

async function keptOf(request, error) {
  const kept = await caches.match(request, { ignoreSearch: true });
  if (kept) return kept;
  throw error;
}

/** A page: the server was asked for it while this worker was started. */
async function pageFor(event) {
  try {
    const answer = await event.preloadResponse ?? await fetch(event.request);
    isServed = true;
    event.waitUntil(keepLater().catch(() => {}));
    return answer;
  } catch (error) {
    isServed = false;
    return keptOf(event.request, error);
  }
}

self.addEventListener('install', (event) => event.waitUntil(keepAll().then(() => self.skipWaiting())));
self.addEventListener('activate', (event) =>
  event.waitUntil(Promise.all([self.clients.claim(), self.registration.navigationPreload?.enable()])),
);
self.addEventListener('fetch', (event) => {
  const { request } = event;
  if (request.method !== 'GET' || new URL(request.url).origin !== location.origin) return;
  if (request.mode === 'navigate') event.respondWith(pageFor(event));
  else if (!isServed) event.respondWith(fetch(request).catch((error) => keptOf(request, error)));
});
