// Bytes as text, and back.
export const hex = (bytes) => Array.from(bytes, (byte) => byte.toString(16).padStart(2, '0')).join('');
/** As a vector file has them: `-` for none. */
export const hexOrDash = (bytes) => hex(bytes) || '-';
export const unhex = (text) => Uint8Array.from(text.match(/../g) ?? [], (pair) => parseInt(pair, 16));
export const encode = (text) => new TextEncoder().encode(text);
export const joined = (...parts) => {
  const whole = new Uint8Array(parts.reduce((sum, { length }) => sum + length, 0));
  let at = 0;
  for (const part of parts) {
    whole.set(part, at);
    at += part.length;
  }
  return whole;
};
/** A text with what can't be seen, or turns the text around it, as escapes. */
export const visible = (text) =>
  text.replace(/[\p{C}\u2028\u2029]/gu, (it) => `\\u{${it.codePointAt(0).toString(16)}}`);
/** A payload as text if it is one, and else in hex; a long one by its first part and its length. */
export const shown = (bytes) => {
  if (bytes.length === 0) return 'empty';
  const rest = (text, most) => (text.length > most ? `${text.slice(0, most)}…` : text);
  const count = bytes.length > 48 ? ` (${bytes.length} bytes)` : '';
  try {
    const text = new TextDecoder('utf-8', { fatal: true }).decode(bytes);
    if (/^[\x20-\x7e\u00a0-\uffff]*$/.test(text)) return `“${visible(rest(text, 48))}”${count}`;
  } catch { /* no text */ }
  return `${rest(hex(bytes), 64)}${count}`;
};
/** A message with its length in front, in two bytes. */
export const frame = (message) => Uint8Array.of(message.length >> 8, message.length & 255, ...message);
