// Three designs made from nothing, by keyboard, by pointer, and by pointer at 390 px: a device that knows its server's
// key, with a psk; a one-way pattern; and one with three faults, mended by the buttons. What a person would take for it
// is reckoned from what was pressed.
import assert from 'node:assert/strict';
import { Keyboard, Pointer } from './hands.mjs';

const ONE_WAY = 'OURS:\n  <- s\n  ...\n  -> e, es, s, ss\n';
const FAULTY = 'DEV:\n  -> e, es\n  <- e, ee, ee\n  -> e\n';
/**
 * Seconds of the keystroke-level model: a key of someone who types seldom, a move of the pointer with its click, and a
 * thought before each act.
 */
const [KEY, MOVE, THOUGHT] = [0.5, 1.3, 1.35];

/** The browser, which counts the keys that are pressed. */
function counting(browser, spent) {
  return new Proxy(browser, {
    get(target, name) {
      const it = target[name];
      if (name === 'press') spent.keys += 1;
      return typeof it === 'function' ? it.bind(target) : it;
    },
  });
}

/** A hand whose acts are counted: by keyboard each key, by pointer each move. */
function counted(Hand, browser) {
  const spent = { seconds: 0, keys: 0 };
  const hand = new Hand(counting(browser, spent));
  const move = Hand === Keyboard ? 0 : MOVE;
  const counts = {
    type: (_, text) => move + text.length * KEY, press: () => move, tick: () => move, choose: () => 2 * move,
  };
  const acts = Object.fromEntries(Object.entries(counts).map(([name, seconds]) => [name, async (...words) => {
    const before = spent.keys;
    await hand[name](...words);
    spent.seconds += THOUGHT + seconds(...words) + (spent.keys - before) * KEY;
  }]));
  return { ...acts, spent };
}

async function design(page, hand) {
  const text = () => page.evaluate('document.getElementById("text").value');
  const verdict = () => page.evaluate(
    'document.getElementById("verdict").className + " " + document.querySelector("#verdict .title").textContent',
  );
  await page.run('localStorage.clear()');
  await page.open('');
  await hand.choose('#pick', 'NK');
  await hand.press('#copy-own');
  await hand.tick('#places input[value="2"]');
  assert.equal(await text(), 'MINEpsk2:\n  <- s\n  ...\n  -> e, es\n  <- e, ee, psk\n');
  assert.equal(await verdict(), 'good Valid: 2 messages. ');
  await hand.type('#text', ONE_WAY);
  assert.equal(await verdict(), 'good Valid: 1 message. ');
  await page.facts(/Message 1Whoever has the initiator’s s, or the responder’s s\./);
  await hand.type('#text', FAULTY);
  assert.equal(await page.evaluate('document.querySelectorAll("#verdict .title, #verdict .more li").length'), 3);
  for (let n = 0; n < 3; n += 1) await hand.press('#mends button:last-child');
  assert.match(await verdict(), /^(?:good|warned) Valid/);
}

/** The three designs with each hand: how long they take. */
export async function designs(page) {
  const told = [];
  for (const [Hand, width, name] of [
    [Pointer, 1440, 'by pointer'], [Keyboard, 1440, 'by keyboard'], [Pointer, 390, 'at 390 px'],
  ]) {
    await page.resize(width, 900);
    const hand = counted(Hand, page.browser);
    await design(page, hand);
    const minutes = hand.spent.seconds / 60;
    assert.ok(minutes < 9, `three designs take ${minutes} minutes`);
    told.push(`${name} ${minutes.toFixed(1)}`);
  }
  return `three designs from nothing, in minutes of the keystroke-level model: ${told.join(', ')}`;
}
