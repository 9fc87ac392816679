// Two channels of which one is closed by both parties, and the other is left idle and unreferenced: the program ends.
import { load } from '../noise.mjs';
import { channels, overTcp } from './connections.mjs';

await load();
const [a, b] = await channels(await overTcp());
for (const it of [a, b]) it.duplex.resume();
a.duplex.end('all');
const [c, d] = await channels(await overTcp());
for (const it of [c, d]) it.duplex.resume().setTimeout(300000).unref();
console.log('whole');
