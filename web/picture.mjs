// The picture of a handshake, as SVG, and the same in words. It is drawn of what plan.mjs gives, and not
// proved. Of a run it has the state of each message, and the last transport message of each party.
import { OTHER } from './faults.mjs';

/** The picture's own rules: the page adopts them, and a saved picture has them inside. */
export const STYLE = `
  .noise .bg{fill:#fff}.noise .ink{fill:#1c2330}.noise .dim{fill:#566074}
  .noise .line{stroke:#566074;stroke-width:1.5;fill:none}
  .noise .life{stroke:#c4cad6;stroke-width:1.5}.noise .e{fill:#8fb8f0}.noise .s{fill:#f2b872}
  .noise .sealed{fill:#7fc8a9}.noise .tag{fill:#b9a3e3}
  .noise .payload{fill:#e6e9ef;stroke:#566074;stroke-dasharray:3 2}
  .noise .payload.sealed{fill:#cfeadf;stroke-dasharray:none}.noise .nonce{fill:#e6e9ef;stroke:#566074}
  .noise .dh{fill:none;stroke:#566074}.noise .on{fill:#141a24;forced-color-adjust:none}
  .noise text{font:13px system-ui,sans-serif}
  .noise .small{font-size:12px}.noise .bold{font-weight:600}.noise .good{fill:#116b3f}.noise .bad{fill:#a8231b}
  .noise .way{fill:#1f5fbf}.noise .unread,.noise .wrong{fill:none;stroke:#566074;stroke-dasharray:3 2}
  .noise .wrong{stroke:#a8231b;stroke-width:2.5;stroke-dasharray:none}
  .noise .due .line{stroke-dasharray:5 4}.noise .now .line{stroke:#1f5fbf;stroke-width:3}.noise .now .head{fill:#1f5fbf}
  .noise .under rect{stroke:#1f5fbf;stroke-width:3;stroke-dasharray:none}
  @media (prefers-color-scheme:dark){
    .noise .bg{fill:#171c25}.noise .ink{fill:#e7ebf2}.noise .dim{fill:#a3adbf}.noise .line,.noise .dh{stroke:#a3adbf}
    .noise .life{stroke:#3b4454}
    .noise .payload,.noise .nonce{fill:#2a3140;stroke:#a3adbf}.noise .payload.sealed{fill:#24483b}
    .noise .wrong{stroke:#ff9d92}
    .noise .good{fill:#6fd3a2}.noise .bad{fill:#ff9d92}.noise .way,.noise .now .head{fill:#7fb0f5}
    .noise .now .line,.noise .under rect{stroke:#7fb0f5}
  }
  @media (forced-colors:active){
    .noise .bg,.noise .payload,.noise .payload.sealed,.noise .nonce{fill:Canvas}
    .noise .line,.noise .dh,.noise .life,.noise .payload,.noise .nonce{stroke:CanvasText}
    .noise .ink,.noise .dim,.noise .good,.noise .bad,.noise .way{fill:CanvasText}
    .noise .now .line,.noise .under rect{stroke:Highlight}
  }
`;
/** How wide a payload, and something mixed in, is drawn, how wide a byte is at least, and how wide the picture. */
const WIDE = { payload: 58, mixed: 32, byte: 1.05 };
const NARROW = { payload: 54, mixed: 29, byte: 0.9 };
const escape = (s) =>
  String(s).replace(/[&<>"]/g, (c) => ({ '&': '&amp;', '<': '&lt;', '>': '&gt;', '"': '&quot;' })[c]);
const text = (x, y, cls, value, anchor = 'start') =>
  `<text x="${x.toFixed(1)}" y="${y.toFixed(1)}" class="${cls}" `
  + `text-anchor="${anchor}">${escape(value)}</text>`;

/** How a piece is called. */
export function pieceName({ kind, sealed, length, name, isWrong }) {
  if (kind === 'unread') return `${name}, ${isWrong ? 'a fault' : 'not checked'}`;
  if (kind === 'e') return `ephemeral key, clear, ${length} bytes`;
  if (kind === 's') return `static key, ${sealed ? 'encrypted' : 'clear'}, ${length} bytes`;
  if (kind === 'tag') return `tag, ${length} bytes`;
  if (kind === 'payload') return `payload, ${sealed ? 'encrypted' : 'clear'}`;
  if (kind === 'nonce') return 'nonce, 8 bytes';
  return kind === 'psk' ? 'pre-shared secret mixed in' : `DH ${kind} mixed in`;
}

const arrowOf = (from) => (from === 'initiator' ? '→' : '←');
const isKey = (item) => item.includes('’s ') || item.includes("'s ");
const coveredBy = (n) => ['message 1', 'messages 1 and 2'][n] ?? `messages 1 to ${n + 1}`;
/** How many characters of the picture's smaller text fit a width. */
const fitting = (width) => Math.floor(width / 6.7);

/** What the hash covers after message N besides the messages: keys known before it, and the psk tokens so far (9.2). */
function coveredBefore({ before, messages }, n) {
  const psks = messages.slice(0, n + 1).flatMap(({ tokens }) => tokens).filter((token) => token === 'psk').length;
  return {
    hasKeys: before.initiator.length + before.responder.length > 0,
    psks: psks > 1 ? `${psks} psks` : ['', 'psk'][psks],
  };
}

/** What a party knows of the other's keys, and what it has mixed in. */
function knowledge(known, role) {
  const keys = known.filter(isKey).map((item) => item.at(-1));
  return {
    keys: keys.length ? `${OTHER[role]}’s ${keys.join(', ')}` : '',
    mixed: known.filter((item) => !isKey(item)),
  };
}

function knownWords(known, role) {
  const { keys, mixed } = knowledge(known, role);
  return `The ${role} ${keys ? `knows the ${keys}` : 'knows no key'} and has mixed in `
    + `${mixed.length ? mixed.join(', ') : 'nothing'}.`;
}

/** A message that wasn't checked, in words. */
const unreadWords = ({ from, pieces, isWrong, says }, n) => (from
  ? `Message ${n + 1}, from the ${from}, ${isWrong ? 'has a fault' : 'isn’t checked'}: `
    + `${pieces.map(pieceName).join('; ')}.`
  : `Message ${n + 1} can’t be read: ${says}.`);

/** The same as the picture, in words, a line for each message. */
export function words(plan) {
  const { section, before, messages } = plan;
  const lines = [`Pattern ${section}, ${messages.length} ${messages.length === 1 ? 'message' : 'messages'}.`];
  for (const role of ['initiator', 'responder']) {
    if (before[role].length) lines.push(`Known before: the ${role}’s ${before[role].join(' and ')}.`);
  }
  messages.forEach((message, n) => {
    const { from, pieces, length, known } = message;
    if (!known) return lines.push(unreadWords(message, n));
    const { hasKeys, psks } = coveredBefore(plan, n);
    const covered = [
      'the protocol name',
      'the prologue',
      hasKeys && 'the keys known before',
      psks && (psks === 'psk' ? 'the psk' : psks),
    ];
    return lines.push(
      `Message ${n + 1}, from the ${from}, ${length} bytes and the payload: ${pieces.map(pieceName).join('; ')}. `
        + `The hash then covers ${covered.filter(Boolean).join(', ')}, and all bytes of ${coveredBy(n)}. `
        + `${knownWords(known.initiator, 'initiator')} ${knownWords(known.responder, 'responder')}`,
    );
  });
  return lines;
}

/** What a party knows, in lines of at most so many characters: the other's keys, then what is mixed in. */
function columnLines(known, role, most) {
  const { keys, mixed } = knowledge(known, role);
  const lines = keys ? [keys] : [];
  mixed.forEach((name, n) => {
    if (n === 0) lines.push(`mixed: ${name}`);
    else if (lines.at(-1).length + name.length + 2 <= most) lines[lines.length - 1] += `, ${name}`;
    else lines.push(name);
  });
  return lines.length ? lines : ['nothing yet'];
}

/** One piece: what it is called, how wide it is, its class and its label. */
function drawn(piece, scale, sizes) {
  const { kind, sealed, length } = piece;
  if (kind === 'unread') {
    const label = `${piece.name}${piece.isWrong ? ' ✗' : ''}`;
    const [cls, ink] = piece.isWrong ? ['wrong', 'bad'] : ['unread', 'ink'];
    return { width: Math.max(sizes.mixed, 8 * label.length + 16), cls, label, ink, isMixed: true };
  }
  if (kind === 'payload') {
    return { width: sizes.payload, cls: `payload${sealed ? ' sealed' : ''}`, label: 'payload', ink: 'ink' };
  }
  if (kind === 'nonce') return { width: sizes.payload, cls: 'nonce', label: 'nonce 8', ink: 'ink' };
  if (length === 0) return { width: sizes.mixed, cls: 'dh', label: kind, ink: 'ink', isMixed: true };
  return {
    width: length * scale,
    cls: kind === 's' && sealed ? 'sealed' : kind,
    label: kind === 'tag' ? '16' : `${kind} ${length}`,
    ink: 'on',
  };
}

const widthOf = (pieces, scale, sizes) => pieces.reduce((sum, piece) => sum + drawn(piece, scale, sizes).width, 0);

/** The pieces in rows, each as wide as the room at most. */
function rowsOf(pieces, scale, sizes, room) {
  const rows = [[]];
  let wide = 0;
  for (const piece of pieces) {
    const { width } = drawn(piece, scale, sizes);
    if (wide + width > room && wide > 0) {
      rows.push([]);
      wide = 0;
    }
    rows.at(-1).push(piece);
    wide += width;
  }
  return rows;
}

/** A bar of pieces to scale, around a middle; a payload, whose length is open, and a nonce have their own widths. */
function bar(pieces, middle, y, scale, sizes, message) {
  let x = middle - widthOf(pieces, scale, sizes) / 2;
  return pieces.map((piece) => {
    const { width, cls, label, ink, isMixed } = drawn(piece, scale, sizes);
    const [left, wide, round] = isMixed ? [x + 1.5, width - 3, ' rx="13"'] : [x, width, ''];
    const half = x + width / 2;
    x += width;
    const token = message === undefined ? '' : ` data-piece="${message}.${piece.token}"`;
    return `<g${token}><title>${escape(pieceName(piece))}</title>`
      + `<rect x="${left.toFixed(1)}" y="${y}" width="${wide.toFixed(1)}" height="26"${round} class="${cls}"/>`
      + `${text(half, y + 17, `small ${ink}`, label, 'middle')}</g>`;
  }).join('');
}

const ROW = 30;

/** The bars of a message, one below the other, and how high they are. */
function bars(pieces, { middle, scale, sizes, room }, y, message) {
  const rows = rowsOf(pieces, scale, sizes, room);
  return [rows.map((row, n) => bar(row, middle, y + ROW * n, scale, sizes, message)).join(''), ROW * rows.length];
}

/** How many units wide the picture is, and how many units a byte is. */
function measure(plan, given) {
  const isNarrow = given < 620;
  const sizes = isNarrow ? NARROW : WIDE;
  const side = isNarrow ? 10 : 165;
  const width = Math.max(given, 200);
  const room = width - (isNarrow ? 8 : 2 * side + 16);
  const wanted = plan.messages.map(({ pieces }) => ({
    fixed: widthOf(pieces, 0, sizes),
    bytes: pieces.reduce((sum, { length }) => sum + length, 0),
  }));
  const scale = Math.max(
    sizes.byte,
    Math.min(2.4, ...wanted.map(({ fixed, bytes }) => (room - fixed) / Math.max(bytes, 1))),
  );
  return { isNarrow, side, width, scale, sizes, room, middle: width / 2, left: side, right: width - side };
}

/** An arrow from one party to the other, with its words and the state of a run. */
function arrow(from, says, { state, isNow }, place, y) {
  const { left, right, middle, isNarrow } = place;
  const [x1, x2] = from === 'initiator' ? [left + 4, right - 6] : [right - 4, left + 6];
  const end = `M${x2} ${y + 20}l${from === 'initiator' ? -8 : 8} -4v8z`;
  const word = state?.word ?? '';
  const inline = word && !isNarrow ? `<tspan class="${state.cls}"> · ${escape(word)}</tspan>` : '';
  return [
    `<text x="${middle.toFixed(1)}" y="${y + 10}" class="ink${isNow ? ' bold' : ''}" `
      + `text-anchor="middle">${escape(says)}${inline}</text>`,
    `<path class="line" d="M${x1} ${y + 20}H${x2}"/><path class="head dim" d="${end}"/>`,
    isNarrow && word ? text(middle, y + 36, `small ${state.cls}`, word, 'middle') : '',
  ].join('');
}

const classOf = ({ state, isNow }) => `message${isNow ? ' now' : ''}${state?.cls === 'due' ? ' due' : ''}`;

/** A message that wasn't checked: its tokens, and those with a fault marked. Its height is with it. */
function unreadRow({ from, pieces, isWrong, says }, n, place, y) {
  if (!from) return [text(place.middle, y + 14, 'bad', `✗ message ${n + 1} can’t be read: ${says}`, 'middle'), 40];
  const [rows, high] = bars(pieces, place, y + ROW, n);
  const what = isWrong ? '✗ a fault' : 'not checked';
  const run = { state: { word: '', cls: 'due' } };
  const made = arrow(from, `${arrowOf(from)} message ${n + 1}: ${what}`, run, place, y);
  return [`<g class="message due">${made}${rows}</g>`, ROW + high + 14];
}

/** The rows of the transport: one for each party that may write, with its last message in a run. */
function transport({ oneWay }, seen, place, y0) {
  const roles = oneWay ? ['initiator'] : ['initiator', 'responder'];
  let y = y0;
  const drawnRows = roles.map((from) => {
    const run = seen?.transport[from] ?? {};
    const says = run.name
      ? `${arrowOf(from)} ${run.name}: ${run.length} bytes`
      : `${arrowOf(from)} transport: payload + ${seen?.isDatagrams ? 24 : 16} bytes`;
    const head = seen?.isDatagrams ? [{ kind: 'nonce', length: 8 }] : [];
    const [body, high] = bars(
      [...head, { kind: 'payload', sealed: true, length: 0 }, { kind: 'tag', length: 16 }],
      place,
      y + (place.isNarrow ? 42 : ROW),
    );
    const made = `<g class="${classOf(run)}">${arrow(from, says, run, place, y)}${body}</g>`;
    y += (place.isNarrow ? 42 : ROW) + high + 10;
    return made;
  });
  return [drawnRows.join(''), y];
}

/** Of a text that isn't valid the transport has only its fault. */
const transportFault = ({ transportWrong }, place, y) =>
  (transportWrong ? [text(place.middle, y + 14, 'bad', '✗ transport: a fault', 'middle'), y + 30] : ['', y + 6]);

/**
 * The picture, at least so many units wide: a unit is a pixel where a font has its usual size. `seen` is what a run has
 * come to.
 */
export function picture(plan, given, seen, unit = 1) {
  const place = measure(plan, Math.floor(given / unit));
  const { isNarrow, side, width, scale, sizes, middle, left, right } = place;
  const most = Math.floor((isNarrow ? width / 2 - 16 : side - 14) / 6.4);
  const outer = { initiator: [8, 'start'], responder: [width - 8, 'end'] };
  const put = (role, lines, y, cls) =>
    lines.map((line, n) => text(outer[role][0], y + 15 * n, cls, line, outer[role][1])).join('');
  const knows = (known, y) => {
    const columns = ['initiator', 'responder'].map((role) => [role, columnLines(known[role], role, most)]);
    return [
      columns.map(([role, lines]) => put(role, lines, y, 'dim small')).join(''),
      Math.max(...columns.map(([, lines]) => lines.length)) * 15,
    ];
  };
  const titled = (name, role) => put(role, [name], 20, 'ink bold') + put(role, ['knows, has mixed'], 38, 'dim small');
  let body = titled('Initiator', 'initiator') + titled('Responder', 'responder');
  const [first, height] = knows(plan.atFirst, 56);
  body += first;
  let y = 56 + height;
  plan.messages.forEach((message, n) => {
    const { from, pieces, length, known } = message;
    if (!known) {
      const [row, long] = unreadRow(message, n, place, y);
      body += row;
      y += long;
      return;
    }
    const { hasKeys, psks } = coveredBefore(plan, n);
    const names = ['name', 'prologue', hasKeys && (isNarrow ? 'keys' : 'known keys'), psks].filter(Boolean).join(', ');
    const whole = [`${isNarrow ? 'hash' : 'the hash covers'}: ${names},`, coveredBy(n)];
    const covered =
      whole.join(' ').length > fitting(isNarrow ? width - 12 : right - left - 12) ? whole : [whole.join(' ')];
    const run = seen?.messages[n] ?? {};
    const [rows, high] = bars(pieces, { middle, scale, sizes, room: place.room }, y + (isNarrow ? 42 : ROW), n);
    const below = y + (isNarrow ? 42 : ROW) + high;
    const more = 15 * (covered.length - 1);
    const says = `${arrowOf(from)} message ${n + 1}: ${length} bytes + payload`;
    body += `<g class="${classOf(run)}">${arrow(from, says, run, place, y)}${rows}</g>`;
    body += covered.map((line, row) => text(middle, below + 14 + 15 * row, 'dim small', line, 'middle')).join('');
    const [columns, deep] = knows(known, isNarrow ? below + more + 32 : y + 40);
    body += columns;
    y = isNarrow ? below + more + 32 + deep + 12 : Math.max(below + more + 32, y + 40 + deep + 10);
  });
  const [rows, end] = plan.isPartial ? transportFault(plan, place, y) : transport(plan, seen, place, y);
  const lives = isNarrow ? '' : [left, right].map((x) => `<path class="life" d="M${x} 12V${end - 4}"/>`).join('');
  return [
    `<svg xmlns="http://www.w3.org/2000/svg" class="noise" width="${width * unit}" height="${end * unit}" `,
    `viewBox="0 0 ${width} ${end}" role="img" aria-labelledby="picture-title" aria-describedby="picture-desc">`,
    `<title id="picture-title">The handshake ${escape(plan.section)}</title>`,
    `<desc id="picture-desc">${escape(words(plan).join(' '))}</desc>`,
    `<rect class="bg" width="${width}" height="${end}"/>${lives}${body}${rows}</svg>`,
  ].join('');
}

/** The picture as a file of its own. */
export const pictureFile = (plan) => picture(plan, 760).replace('</desc>', `</desc><style>${STYLE}</style>`);
