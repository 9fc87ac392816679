// WebSockets that can be made to wait: those with `pause` and `resume`, as the package ws has them, and
// WebSocketStream.
import test from 'node:test';
import assert from 'node:assert/strict';
import { NoiseSocket, load } from '../noise.mjs';
import { NN, channels, openSockets, outcome, refused, text } from './connections.mjs';

const pause = (milliseconds) => new Promise((resolve) => { setTimeout(resolve, milliseconds); });

/** Waits until a socket is paused. */
async function paused(socket) {
  for (let n = 0; n < 6000 && !socket.isPaused; n += 1) await pause(10);
  assert.equal(socket.isPaused, true);
}

/** Lets a socket be paused: what comes meanwhile waits at the other party, unsent. */
function pausable(socket) {
  const take = socket.take.bind(socket);
  const waiting = [];
  socket.pauses = 0;
  socket.isPaused = false;
  socket.take = (data) => {
    if (!socket.isPaused && waiting.length === 0) return take(data);
    socket.other.bufferedAmount += data.length;
    return waiting.push(data);
  };
  socket.pause = () => { socket.isPaused = true; socket.pauses += 1; };
  socket.resume = () => {
    socket.isPaused = false;
    while (waiting.length > 0 && !socket.isPaused) {
      socket.other.bufferedAmount -= waiting[0].length;
      take(waiting.shift());
    }
  };
  return socket;
}

/** Both sides of a WebSocketStream, which is open at once; `break` ends it without a close. */
function socketStreams() {
  const pipes = [new TransformStream(), new TransformStream()];
  const closings = [0, 1].map(() => {
    let settle;
    const closed = new Promise((resolve, reject) => { settle = { resolve, reject }; });
    closed.catch(() => {});
    return { closed, ...settle };
  });
  return pipes.map(({ writable }, n) => {
    const writer = writable.getWriter();
    const sent = new WritableStream({
      write: (bytes) => writer.write(bytes.slice().buffer),    // as an ArrayBuffer
      close: () => { closings.forEach((it) => it.resolve({ closeCode: 1000 })); return writer.close(); },
    });
    return {
      opened: Promise.resolve({ readable: pipes[1 - n].readable, writable: sent }),
      closed: closings[n].closed,
      text: (words) => writer.write(words),
      break: (error) => { writer.abort(error).catch(() => {}); closings.forEach((it) => it.reject(error)); },
      close: () => { writer.close().catch(() => {}); closings.forEach((it) => it.resolve({ closeCode: 1005 })); },
    };
  });
}

test('WebSockets', { timeout: 300000 }, async (t) => {
  await load();
  await t.test('one that can be paused waits for a slow reader, and all comes', async () => {
    const [near, far] = openSockets();
    const [a, b] = await channels([near, pausable(far)], NN, { ...NN, backlog: 1 << 20 });
    const sending = (async () => {
      for (let n = 0; n < 640; n += 1) await a.send(new Uint8Array(65519).fill(n));
      await a.end();
    })();
    await paused(far);
    for (let n = 0; n < 640; n += 1) assert.equal((await b.receive())[65518], n & 255);
    assert.equal(await b.receive(), undefined);
    await Promise.all([sending, a.close(), b.close()]);
    assert.equal(far.isPaused, false);
  });

  await t.test('one that is paused is let go on by close, and by a refusal', async () => {
    for (const end of ['close', 'destroy']) {
      const [near, far] = openSockets();
      const [a, b] = await channels([near, pausable(far)]);
      for (let n = 0; n < 20; n += 1) a.send(new Uint8Array(65519)).catch(() => {});
      await paused(far);
      await b[end]();
      assert.equal(far.isPaused, false);
      a.destroy();
    }
  });

  await t.test('a stranger’s messages during the handshake are bounded, or wait', async () => {
    const [near, far] = openSockets();
    const opened = outcome(
      NoiseSocket.open(pausable(near), { ...NN, responder: true, signal: AbortSignal.timeout(60000) }),
    );
    for (let n = 0; n < 1000; n += 1) far.send(new Uint8Array(60000));
    assert.match(await opened, /^NOISE_(TOO_LONG|BACKLOG)$/u);
  });

  await t.test('a WebSocketStream: payloads, both parties, and a text is refused', async () => {
    const [a, b] = await channels(socketStreams());
    for (const length of [1, 65519, 200000]) {
      const sent = a.send(new Uint8Array(length).fill(7));
      for (let left = length; left > 0; left -= 65519) {
        assert.deepEqual(await b.receive(), new Uint8Array(Math.min(left, 65519)).fill(7));
      }
      await sent;
    }
    const back = b.send(text('back'));
    assert.deepEqual(await a.receive(), text('back'));
    await back;
    const ended = a.end();
    assert.equal(await b.receive(), undefined);
    await Promise.all([ended, b.close(), a.close()]);
    const [near, far] = socketStreams();
    const [c] = await channels([near, far]);
    far.text('a text');
    await assert.rejects(c.receive(), refused('NOISE_SHORT'));
  });

  await t.test('a WebSocketStream that breaks, closes early or was never opened is a cut', async () => {
    const [near, far] = socketStreams();
    const [a] = await channels([near, far]);
    const broken = new Error('broken');
    far.break(broken);
    await assert.rejects(a.receive(), (error) => error.code === 'NOISE_CUT' && error.cause === broken);
    const [one, two] = socketStreams();
    const [c] = await channels([one, two]);
    two.close();
    await assert.rejects(c.receive(), refused('NOISE_CUT'));
    const never = { opened: Promise.reject(broken), closed: Promise.reject(broken), close: () => {} };
    await assert.rejects(NoiseSocket.open(never, NN), (error) => error.code === 'NOISE_CUT' && error.cause === broken);
  });

  await t.test('who doesn’t read a WebSocketStream makes the sender wait', async () => {
    const [a, b] = await channels(socketStreams());
    let sent = 0;
    const sending = (async () => { for (; sent < 100; sent += 1) await a.send(new Uint8Array(65519)); })().catch(
      () => {},
    );
    await pause(100);
    assert.ok(sent < 10, `${sent} payloads`);
    b.destroy();
    a.destroy();
    await sending;
  });
});
