// Layouts, against those that section 5 of the standard gives by hand: a key has 32 bytes, what is encrypted 16 more.
import test from 'node:test';
import assert from 'node:assert/strict';
import { layout, load, protocolName } from '../noise.mjs';
import { refused } from './connections.mjs';
import { DEFERRED } from './patterns.mjs';

/** Pieces as words: kind, length, and + where it is encrypted. */
const words = ({ pieces }) =>
  pieces.map(({ kind, length, encrypted }) => `${kind} ${length}${encrypted ? '+' : ''}`).join(', ');

test('layouts', async (t) => {
  await load();
  await t.test('of XX, by its name, its protocol name and its text', () => {
    const text = 'XX:\n  -> e\n  <- e, ee, s, es\n  -> s, se\n';
    for (const pattern of ['XX', protocolName('XX'), text]) {
      const { messages, ...rest } = layout(pattern);
      assert.deepEqual(rest, {
        oneWay: false,
        psks: 0,
        before: { initiator: [], responder: [] },
        static: { initiator: true, responder: true },
      });
      assert.deepEqual(messages.map(words), [
        'e 32, payload 0',
        'e 32, ee 0, s 48+, es 0, payload 16+',
        's 48+, se 0, payload 16+',
      ]);
      assert.deepEqual(messages.map(({ from, length }) => [from, length]), [
        ['initiator', 32],
        ['responder', 96],
        ['initiator', 64],
      ]);
      assert.deepEqual(messages[1].tokens, ['e', 'ee', 's', 'es']);
      for (const { pieces, length } of messages) {
        let at = 0;
        for (const piece of pieces) {
          assert.equal(piece.from, at);
          at += piece.length;
        }
        assert.equal(at, length);
      }
    }
  });

  await t.test('with psks, pre-messages, and one way', () => {
    const nn = layout('NNpsk0+psk2');
    assert.deepEqual(
      [nn.psks, nn.messages.map(words)],
      [2, ['psk 0, e 32, payload 16+', 'e 32, ee 0, psk 0, payload 16+']],
    );
    assert.deepEqual(nn.static, { initiator: false, responder: false });
    const ik = layout('IK');
    assert.deepEqual(
      [ik.before, words(ik.messages[0])],
      [{ initiator: [], responder: ['s'] }, 'e 32, es 0, s 48+, ss 0, payload 16+'],
    );
    const n = layout('N');
    assert.deepEqual(
      [n.oneWay, n.static, n.messages.map(words)],
      [true, { initiator: false, responder: true }, ['e 32, es 0, payload 16+']],
    );
    assert.deepEqual(layout('MINE:\n  <- e\n  ...\n  -> e, ee\n').before.responder, ['e']);
    assert.deepEqual(layout(DEFERRED.get('KK1')).before, { initiator: ['s'], responder: ['s'] });
  });

  await t.test('of what is no pattern there is none', () => {
    assert.throws(() => layout('QQ'), refused('NOISE_NAME'));
    assert.throws(() => layout('NK1'), refused('NOISE_NAME'));    // a deferred one: pass its text
    assert.throws(() => layout('MINE:\n  -> e, es\n'), refused('NOISE_RULE'));
    assert.throws(() => layout('mine:\n  -> e\n'), refused('NOISE_HEADING'));
    assert.throws(() => layout(`MINE:\n${'  -> e\n'.repeat(20000)}`), refused('NOISE_LENGTH'));
  });
});
