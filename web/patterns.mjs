// The texts of the 38 patterns of the standard, and the names of protocols. checks/web compares them with the library,
// which refuses another text of a fundamental name, and the deferred ones with examples/patterns.

const K = { '': [], i: ['  -> s'], r: ['  <- s'], b: ['  -> s', '  <- s'] };

/** Base: which static keys are known before (none, the initiator's, the responder's, both), then the messages. */
const TABLE = {
  N: 'r|e, es', K: 'b|e, es, ss', X: 'r|e, es, s, ss',
  NN: '|e|e, ee', NK: 'r|e, es|e, ee', NX: '|e|e, ee, s, es',
  XN: '|e|e, ee|s, se', XK: 'r|e, es|e, ee|s, se', XX: '|e|e, ee, s, es|s, se',
  KN: 'i|e|e, ee, se', KK: 'b|e, es, ss|e, ee, se', KX: 'i|e|e, ee, se, s, es',
  IN: '|e, s|e, ee, se', IK: 'r|e, es, s, ss|e, ee, se', IX: '|e, s|e, ee, se, s, es',
  NK1: 'r|e|e, ee, es', NX1: '|e|e, ee, s|es',
  X1N: '|e|e, ee|s|se', X1K: 'r|e, es|e, ee|s|se', XK1: 'r|e|e, ee, es|s, se', X1K1: 'r|e|e, ee, es|s|se',
  X1X: '|e|e, ee, s, es|s|se', XX1: '|e|e, ee, s|es, s, se', X1X1: '|e|e, ee, s|es, s|se',
  K1N: 'i|e|e, ee|se', K1K: 'b|e, es|e, ee|se', KK1: 'b|e|e, ee, se, es', K1K1: 'b|e|e, ee, es|se',
  K1X: 'i|e|e, ee, s, es|se', KX1: 'i|e|e, ee, se, s|es', K1X1: 'i|e|e, ee, s|se, es',
  I1N: '|e, s|e, ee|se', I1K: 'r|e, es, s|e, ee|se', IK1: 'r|e, s|e, ee, se, es', I1K1: 'r|e, s|e, ee, es|se',
  I1X: '|e, s|e, ee, s, es|se', IX1: '|e, s|e, ee, se, s|es', I1X1: '|e, s|e, ee, s|se, es',
};

/** The fifteen fundamental patterns (7.4, 7.5), and the 23 deferred ones (18.1). */
export const FUNDAMENTAL = Object.freeze(Object.keys(TABLE).slice(0, 15));
export const DEFERRED = Object.freeze(Object.keys(TABLE).slice(15));

/**
 * The text of a pattern of the standard, with psk tokens at these places: 0 is before the first message, N at the end
 * of message N.
 */
export function textOf(base, places = []) {
  const [known, ...messages] = TABLE[base].split('|');
  for (const place of places) {
    if (place === 0) messages[0] = `psk, ${messages[0]}`;
    else messages[place - 1] += ', psk';
  }
  const heading = `${base}${places.map((place) => `psk${place}`).join('+')}:`;
  const lines = [
    heading,
    ...K[known],
    ...(known ? ['  ...'] : []),
    ...messages.map((tokens, n) => `  ${n % 2 ? '<-' : '->'} ${tokens}`),
  ];
  return lines.map((line) => `${line}\n`).join('');
}

/** The library's algorithms, as protocol names end. */
export const SUITE = '25519_ChaChaPoly_SHA256';
export const protocolName = (section) => `Noise_${section}_${SUITE}`;
const NAME = new RegExp(`^(?:Noise_)?([A-Z][A-Z0-9]{0,7})((?:psk[0-8]\\+?)*)(?:_${SUITE})?$`);

/** The text of a protocol name of a pattern of the standard, or undefined. */
export function textOfName(name) {
  const parts = NAME.exec(name);
  if (!parts || !Object.hasOwn(TABLE, parts[1])) return undefined;
  const places = (parts[2].match(/\d/g) ?? []).map(Number);
  return places.every((place) => place < TABLE[parts[1]].split('|').length) ? textOf(parts[1], places) : undefined;
}
