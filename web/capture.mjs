// Messages that somebody captured, as hex: which message of the pattern each is, its pieces, and what is in the clear.
// Lengths alone are looked at: nothing is decrypted. There is no DOM here.
import { hex, shown, unhex } from './bytes.mjs';
import { TITLES, kindOf } from './pieces.mjs';

/** The bytes of a line, without blanks, colons and `0x`; undefined where it isn't hex. */
function bytesOf(line) {
  const digits = line.replace(/0x/gi, '').replace(/[\s:,]/g, '');
  return /^(?:[0-9a-f]{2})+$/i.test(digits) ? unhex(digits) : undefined;
}

const lengthAt = (bytes, at) => bytes[at] * 256 + bytes[at + 1];

/** The messages of bytes that begin with a length of two bytes each, to the last byte; or undefined. */
function framesOf(bytes) {
  const found = [];
  for (let at = 0; at < bytes.length;) {
    const end = at + 2 + lengthAt(bytes, at);
    if (!(end <= bytes.length)) return undefined;
    found.push(bytes.slice(at + 2, end));
    at = end;
  }
  return found;
}

/** Where the pieces of a message are; the payload has what is left of its length. */
function placesOf({ pieces, length }, message) {
  let from = 0;
  return pieces.flatMap((piece) => {
    const long = piece.kind === 'payload' ? message.length - length : piece.length;
    const [start, end] = [from, from + long];
    from = end;
    if (long === 0) return [];
    const bytes = message.slice(start, end);
    const isClear = ['e', 's', 'payload'].includes(piece.kind) && !piece.sealed;
    const words = piece.kind === 'payload' ? shown(bytes) : hex(bytes);
    return [{ name: TITLES[kindOf(piece)], start, end: end - 1, clear: isClear && words }];
  });
}

function transport(message, isDatagrams) {
  const { length } = message;
  const head = isDatagrams ? 8 : 0;
  if (length < head + 16) return { title: `Transport: ${length} bytes, fewer than a tag has`, isBad: true };
  const nonce = isDatagrams ? [{ name: TITLES.nonce, start: 0, end: 7, clear: hex(message.slice(0, 8)) }] : [];
  const text = length > head + 16 ? [{ name: TITLES.text, start: head, end: length - 17 }] : [];
  return {
    title: `${isDatagrams ? 'Datagram' : 'Transport message'}: ${length} bytes, `
      + `of which ${length - head - 16} are the payload`,
    pieces: [...nonce, ...text, { name: TITLES.tag, start: length - 16, end: length - 1 }],
  };
}

function read(plan, message, n, isDatagrams) {
  const part = plan.messages[n];
  if (!part) return transport(message, isDatagrams);
  const title = `Message ${n + 1}, from the ${part.from}: ${message.length} bytes`;
  if (message.length < part.length) return { title: `${title}, and it has at least ${part.length}`, isBad: true };
  return { title, pieces: placesOf(part, message) };
}

/**
 * What messages in hex are, a line each or one after another with a length of two bytes in front: of each a title and
 * its pieces, with what is in the clear. `{ fault }` where a line isn't hex.
 */
export function readCapture(plan, text, isDatagrams = false) {
  const lines = text.split('\n').filter((line) => line.trim() !== '');
  const all = lines.map(bytesOf);
  const wrong = all.findIndex((bytes) => !bytes);
  if (wrong >= 0) return { fault: `Line ${wrong + 1} isn’t hex.` };
  const framed = all.map(framesOf);
  const isFramed = all.length > 0 && framed.every((it) => it !== undefined);
  const messages = isFramed ? framed.flat() : all;
  return { isFramed, messages: messages.map((message, n) => read(plan, message, n, isDatagrams)) };
}
