// The page as a designer uses it, with one hand: a pattern of one's own from nothing, its fault mended, and nothing of
// it lost; a run with a refusal, its key schedule and its link; streams, an end and a cut. `hand` is one of hands.mjs.
import assert from 'node:assert/strict';

const FAULTY = 'MINE:\n  <- s\n  -> e, es\n  <- e, ee\n';
const MENDED = 'MINE:\n  <- s\n  ...\n  -> e, es\n  <- e, ee\n';
const quoted = JSON.stringify;

export class Walk {
  constructor(page, hand) {
    Object.assign(this, { page, hand });
  }

  text() {
    return this.page.evaluate('document.getElementById("text").value');
  }

  of(id) {
    return this.page.textOf(id);
  }

  /** Something becomes so, at most in some seconds. */
  until(expression) {
    return this.page.until(expression);
  }

  async all() {
    await this.design();
    await this.beside();
    await this.undone();
    await this.refusal();
    await this.stale();
    await this.shared();
    await this.programs();
    await this.psks();
    await this.streams();
  }

  /** A pattern from nothing, whose “...” was forgotten, and its facts. */
  async design() {
    const { hand } = this;
    await this.page.open();
    await this.page.run('localStorage.clear()');
    await this.page.open();
    await hand.type('#text', FAULTY);
    assert.match(await this.of('verdict'), /^Line 2\. .*“\.\.\.”, and that line is missing/);
    await hand.press('#mends button');
    assert.equal(await this.text(), MENDED);
    assert.equal(await this.page.evaluate('document.activeElement.id'), 'text');
    assert.match(await this.of('verdict'), /^Valid: 2 messages/);
    await this.page.facts(/Message 1, payloades.*The initiator’s e, or the responder’s s\./);
    await this.page.facts(
      /Message 1Anyone, with an e of its own\.Accepted again: the responder puts in no e before\..*Noise Explorer/,
    );
    await hand.type('#text', 'MINE:\n  -> e\n  <- e\n');
    assert.match(
      await this.of('verdict'),
      /^Valid: 2 messages, with a warning\. Warning: Transport, recorded: no DH is mixed in, and everybody can compute the key/,
    );
    assert.equal(await this.page.evaluate('document.getElementById("verdict").className'), 'warned');
    await this.page.until('document.querySelectorAll("#facts tr.warns").length === 1');
    await hand.undo();
    assert.equal(await this.text(), MENDED);
  }

  /** Two patterns beside each other. */
  async beside() {
    const { hand } = this;
    await hand.choose('#pick', 'NK');
    await hand.choose('#beside', 'NK1');
    const rows = await this.page.evaluate(
      '[...document.querySelectorAll("#other tbody tr")].map((it) => [...it.children].map((cell) => cell.textContent))',
    );
    assert.deepEqual(rows[0], ['Message 1', '→ e, es (48 bytes)', '→ e (32 bytes)']);
    assert.ok(rows.every(([, left, right]) => left !== right));
    await hand.choose('#beside', '');
  }

  /**
   * What the page changes in the editor the browser's undo takes back, and Back, and the list of one's own patterns.
   */
  async undone() {
    const { hand } = this;
    assert.match(await this.text(), /^NK:/);
    await hand.tick('#places input[value="2"]');
    assert.match(await this.text(), /^NKpsk2:[^]*ee, psk/);
    await hand.undo();
    assert.match(await this.text(), /^NK:[^]*ee\n/);
    // By the arrow keys each pattern on the way was chosen.
    for (let n = 0; n < 12 && await this.text() !== MENDED; n += 1) await hand.undo();
    assert.equal(await this.text(), MENDED);
    await hand.choose('#pick', 'XX');
    assert.match(await this.text(), /^XX:/);
    await this.page.evaluate('history.back()');
    await this.until(`document.getElementById("text").value === ${quoted(MENDED)}`);
    await hand.choose('#pick', 'XX');
    await hand.reach('#text');
    await hand.choose('#pick', `own ${MENDED}`);
    assert.equal(await this.text(), MENDED);
  }

  /** A byte is changed on its way, and what refuses it says message and token by name. */
  async refusal() {
    const { hand } = this;
    await hand.choose('#pick', 'XX');
    await hand.type('#prologue', 'walk');
    await this.begin();
    await this.write('initiator');
    assert.equal(await this.page.evaluate('document.getElementById("all").getAttribute("aria-disabled")'), 'false');
    await this.deliver(2);
    await this.write('responder');
    assert.equal(await this.page.newest('.fate'), 'not delivered');
    await hand.flip('#current-body .bytes', 40);
    assert.match(await this.page.shown('.piece'), /^byte 40: static key, encrypted \(bytes 32 to 63\), changed/);
    assert.match(await this.page.shown('.go'), /^Deliver with byte 40 changed/);
    assert.equal(await this.of('step'), 'Deliver message 2 to the initiator with byte 40 changed');
    await this.deliver(4);
    assert.match(
      await this.of('said'),
      /^4\. Initiator refused message 2, token s: a tag is wrong\. Changed on the way: byte 40\. Its handshake has ended\.$/,
    );
    assert.equal(await this.page.newest('.chip'), 'refused');
    assert.equal(
      await this.page.evaluate('document.querySelector("#log li:nth-child(2) .fate").textContent'),
      'refused',
    );
    assert.notEqual(await this.page.evaluate('document.activeElement.tagName'), 'BODY');
    await this.until('document.getElementById("live").textContent === document.getElementById("said").textContent');
    await hand.press('#current-more details.schedules summary');
    await this.until('document.querySelector("#current-more .schedule dt") !== null');
    const steps = await this.page.evaluate(
      '[...document.querySelectorAll("#current-more .schedule dt")].map((it) => it.textContent)',
    );
    assert.deepEqual(steps, [
      'e (MixHash)',
      'ee (MixKey)',
      's (EncryptAndHash)',
      'es (MixKey)',
      'payload (EncryptAndHash)',
    ]);
    await hand.press('#current-more details.schedules .copy');
    assert.match(
      await this.clipboard(/^trace /),
      /^trace responder 2 0 e MixHash 0 [0-9a-f]{64} [0-9a-f]{64} [0-9a-f]{64} - 0\n/,
    );
    await hand.press('#current .deliver .copy');
    await this.until('document.getElementById("live").textContent === "Copied: message 2."');
    assert.match(await this.clipboard(/^[0-9a-f]*$/), /^[0-9a-f]{192,}$/);
  }

  /** The run of another set-up stays, greyed, and the way back and onward is beside it. */
  async stale() {
    const { hand } = this;
    const before = await this.page.count();
    await hand.type('#prologue', 'walks');
    assert.equal(await this.page.count(), before);
    assert.ok(
      await this.page.evaluate(
        'document.getElementById("ran").matches(".stale") && document.getElementById("back").offsetHeight > 0',
      ),
    );
    assert.equal(await this.of('step'), 'Begin again with this set-up');
    await hand.press('#back');
    assert.equal(
      await this.page.evaluate('document.getElementById("prologue").value + document.getElementById("ran").className'),
      'walk',
    );
    assert.equal(await this.page.count(), before);
  }

  /** A reload and a link bring back the set-up and the run; the refusal is the same with other keys. */
  async shared() {
    const { hand } = this;
    const said = (await this.of('said')).replace(/^.*?4\. /, '');
    const entries = () =>
      this.page.evaluate('[...document.querySelectorAll("#log .who")].map((it) => it.textContent.trim())');
    const [first, keys] = [await entries(), await this.of('key-list')];
    await hand.press('#copy-run');
    const address = await this.clipboard(/#pattern=/);
    assert.equal(
      await this.of('copied'),
      'A link to this run copied. It opens only on this computer, which serves this page.',
    );
    assert.ok(address.startsWith(await this.page.evaluate('location.href.split("#")[0]')));
    await hand.press('#save-vector');
    await this.until('document.getElementById("copied").textContent === "The browser saves XX.vector."');
    for (const [, key] of keys.matchAll(/([0-9a-f]{64})/g)) assert.ok(!address.includes(key));
    await this.page.open(new URL(address).hash);
    await this.until('document.getElementById("log").childElementCount === 4');
    assert.deepEqual(await entries(), first);
    assert.ok((await this.of('said')).includes(said.slice(0, 40)));
    assert.notEqual(await this.of('key-list'), keys);
    await this.page.until('!location.hash.includes("run=") && sessionStorage.length > 0');
    await this.page.reload();
    await this.until('document.getElementById("log").childElementCount === 4');
    assert.deepEqual(await entries(), first);
  }

  /** The program of each language, coloured, and as it is copied. */
  async programs() {
    const { hand } = this;
    const isCopied =
      'navigator.clipboard.readText().then((text) => text === document.getElementById("code").textContent)';
    for (const [n, opening] of ['#include', 'package main', 'use ', 'import ', 'import '].entries()) {
      await hand.press(`#languages button:nth-child(${n + 1})`);
      await this.until(
        `document.querySelector("#languages button:nth-child(${n + 1})").matches("[aria-pressed=true]")`,
      );
      await hand.press('#program-row .copy');
      await this.until(isCopied);
      assert.ok((await this.of('code')).includes(opening));
      assert.ok(await this.page.evaluate('document.querySelectorAll("#code [class^=h-]").length') > 10);
    }
  }

  /**
   * A responder with other psks: the refusal, the key schedules that part at the psk, and the way back to psks that are
   * the same.
   */
  async psks() {
    const { hand } = this;
    const isShown = (id) => this.page.evaluate(`document.getElementById("${id}").checkVisibility()`);
    await hand.choose('#pick', 'NN');
    assert.equal(await isShown('ownPsks'), false);
    await hand.tick('#places input[value="2"]');
    assert.equal(await this.page.evaluate('document.getElementById("ownPsks").checked'), false);
    await hand.tick('#ownPsks');
    await this.begin();
    await this.adding(4, () => hand.press('#all'));
    assert.match(
      await this.of('said'),
      / 4\. Initiator refused message 2, payload: a tag is wrong\. The parties’ psks differ\. Its handshake has ended\.$/,
    );
    const schedule = (await this.page.evaluate('noisePage.log')).map((line) => line.split(' ').slice(1));
    const [[own], [other]] = ['initiator', 'responder'].map((role) =>
      schedule.filter((words) => words[0] === role && words[3] === 'psk'),
    );
    assert.deepEqual(own.slice(1, 7), other.slice(1, 7));
    for (const n of [7, 8, 9]) assert.notEqual(own[n], other[n]);
    const [ee, same] = ['initiator', 'responder'].map((role) =>
      schedule.find((words) => words[0] === role && words[3] === 'ee').slice(1).join(),
    );
    assert.equal(ee, same);
    assert.match(
      await this.of('key-list'),
      /Initiator’s psk 1, a secret of this run [0-9a-f]{64} .*Responder’s psk 1, a secret/,
    );
    assert.equal(
      await this.page.evaluate('document.getElementById("save-vector").getAttribute("aria-disabled")'),
      'true',
    );
    assert.equal(await isShown('no-vector'), true);
    await this.until(
      '/psks=own$/.test(location.hash) && Object.values(sessionStorage).some((it) => /_di\\.0"/.test(it))',
    );
    await this.page.reload();
    await this.until('document.getElementById("log").childElementCount === 4');
    assert.equal(await this.page.evaluate('document.getElementById("ownPsks").checked'), true);
    await hand.tick('#ownPsks');
    await this.begin();
    await this.adding(4, () => hand.press('#all'));
    assert.match(await this.of('state'), /initiator is open .*responder is open/);
    await hand.press('#keys > summary');
    await hand.press('#key-list details summary');
    await this.until('document.querySelector("#key-list .schedule dt") !== null');
    assert.deepEqual(
      await this.page.evaluate('[...document.querySelectorAll("#key-list .schedule dt")].map((it) => it.textContent)'),
      ['name (InitializeSymmetric)', 'prologue (MixHash)'],
    );
    await hand.tick('#places input[value="2"]');
  }

  /** Streams: an end, a cut, a refusal after which nothing is sent, and what each side reports. */
  async streams() {
    const { hand } = this;
    await hand.choose('#pick', 'NN');
    await hand.choose('#mode', 'stream');
    await this.begin();
    await hand.press('#all');
    await this.until('document.getElementById("log").childElementCount === 4');
    await this.write('initiator');
    await this.deliver(6);
    await this.adding(7, () => hand.press('[data-end=initiator]'));
    assert.match(
      await this.of('said'),
      /^7\. Initiator wrote the end of its stream \(transport message 2\): 16 bytes\.$/,
    );
    assert.equal(
      await this.of('state'),
      'The initiator has ended its stream (sent 2, accepted 0); the responder is open (sent 0, accepted 1).',
    );
    await this.deliver(8);
    assert.match(
      await this.of('said'),
      /^8\. Responder accepted the end of the initiator’s stream .*all of it has come/,
    );
    await this.write('responder');
    assert.equal(await this.page.shown('.deliver label'), ' bytes of 23: the first 2 are its length');
    await hand.type('#current .deliver input', '9');
    await this.adding(11, () => hand.press('#current .deliver button:not(.go)'));
    assert.match(
      await this.of('said'),
      /11\. The connection has ended\. The initiator reports a cut: .* after 0 payloads and 9 bytes of an unfinished message\./,
    );
    assert.match(
      await this.of('said'),
      /The responder reports the end of the initiator’s stream, after all of it: 1 payload\./,
    );
    const going = await this.page.evaluate(
      '[...document.querySelectorAll("#current .deliver button:not(.copy)")].map((it) => '
        + 'it.getAttribute("aria-disabled") + it.title)',
    );
    assert.deepEqual([...new Set(going)], ['trueThe connection is closed.']);
    await this.page.save(`stream-${this.hand.name.split(' ')[1]}`);
    await this.begin();
    await hand.press('#all');
    await this.until('document.getElementById("log").childElementCount === 4');
    await this.write('initiator');
    await hand.flip('#current-body .bytes', 2);
    await this.deliver(6);
    assert.match(
      await this.of('said'),
      /^6\. Responder refused transport message 1 of the initiator: a tag is wrong\..*sends nothing, no end either/,
    );
    const buttons = '[...document.querySelectorAll("[data-write=responder], [data-end=responder]")]';
    assert.equal(
      await this.page.evaluate(`${buttons}.map((it) => it.getAttribute("aria-disabled")).join()`),
      'true,true',
    );
  }

  async begin() {
    await this.hand.press(await this.page.evaluate('document.getElementById("start").hidden') ? '#step' : '#start');
    await this.until(
      'document.getElementById("log").childElementCount === 0 && '
        + 'document.getElementById("all").getAttribute("aria-disabled") === "false"',
    );
  }

  /** Does something after which the log has so many entries; if it hasn't, what the page says is in the error. */
  async adding(count, work) {
    await work();
    try {
      await this.until(`document.getElementById("log").childElementCount === ${count}`);
    } catch ({ message }) {
      assert.fail(`${message}; the page says: ${await this.of('said')}`);
    }
  }

  async write(role) {
    await this.adding(await this.page.count() + 1, () => this.hand.press(`[data-write=${role}]`));
  }

  /** Delivers the newest message, after which the log has so many entries. */
  async deliver(count) {
    await this.adding(count, () => this.hand.press('#current .go'));
  }

  /** What the clipboard has, once it is of this form. */
  async clipboard(form) {
    for (let n = 0; n < 300; n += 1) {
      const text = await this.page.evaluate('navigator.clipboard.readText()');
      if (form.test(text)) return text;
      await new Promise((resolve) => { setTimeout(resolve, 10); });
    }
    return assert.fail(`the clipboard never has ${form}`);
  }
}
