// The run as it is shown: a line for each entry with its outcome, and one message with its bytes and the buttons that
// deliver it.
import { hex, shown } from './bytes.mjs';
import { bytesView } from './bytesview.mjs';
import { button, copier, element, enable, tell } from './element.mjs';
import { OTHER, ROLES } from './party.mjs';
import { sorted } from './run.mjs';
import { scheduleOf } from './schedule.mjs';
import { CHIPS, fateOf, messageName, named, sentenceOf } from './sentences.mjs';

/** How many of the newest entries are shown unless more are asked for. */
const SHOWN = 12;

const VALUES = ['h', 'ck', 'k', 'n'];

/** Lines of `noise trace` as a list: of each step its values, whole. */
function scheduleList(lines) {
  const rows = lines.flatMap((line) => {
    const words = line.split(' ');
    const values = VALUES.map((name, n) => `${name} ${words[8 + n]}`).filter((it) => !it.endsWith(' -'));
    return [element('dt', '', `${words[4]} (${words[5]})`), ...values.map((it) => element('dd', '', it))];
  });
  return element('dl', 'schedule', ...rows);
}

/** A key schedule, worked out when it is opened: `linesOf` gives its lines of all, and `what` says of what it is. */
function scheduleDetails(run, linesOf, what, title) {
  const made = element('details', 'schedules', element('summary', '', title));
  made.addEventListener('toggle', async () => {
    if (!made.open || made.childElementCount > 1) return;
    try {
      const lines = linesOf(await scheduleOf(run));
      if (made.childElementCount > 1) return;
      if (!lines.length) return made.append(element('p', '', 'No step of the key schedule belongs to it.'));
      made.append(
        scheduleList(lines),
        copier(`the key schedule of ${what}`, () => lines.map((line) => `${line}\n`).join(''), 'Copy as log'),
        element(
          'p',
          'hint',
          'Secrets of this run, as noise trace prints them. This page works them out, '
            + 'and compares h with the library’s after each message.',
        ),
      );
    } catch (error) {
      made.append(element('p', 'bad', `This page can’t work it out: ${error.message}.`));
    }
    return undefined;
  });
  return made;
}

/** Switches on what delivers messages, or off with a reason. */
function allow(box, why) {
  for (const it of box.querySelectorAll('button:not(.copy)')) enable(it, !why, why);
}

/** The buttons that let a written message come, as it is or changed; of a stream also the one that cuts it. */
function deliverRow(run, entry, { act, whyNot }) {
  const { item } = entry;
  const to = OTHER[entry.role];
  const name = messageName(entry);
  const row = element('div', 'deliver');
  row.setAttribute('role', 'group');
  row.setAttribute('aria-label', named(name));
  const deliver = button('', () => act(() => run.deliver(to, item.n, sorted(item.flips))), 'go');
  row.append(deliver);
  if (run.setup.mode === 'stream' && item.number === undefined) {
    const place = element('input');
    const { length } = item.message;
    Object.assign(place, { type: 'number', min: 0, max: length + 1, value: 2 });
    place.setAttribute('aria-label', `So many bytes of ${name} come, with its length of 2`);
    const count = () => Math.max(0, Math.min(length + 1, Math.floor(Number(place.value)) || 0));
    row.append(
      button('Cut the connection after', () => act(() => run.cut(to, item.n, count()))),
      element('label', '', place, ` bytes of ${length + 2}: the first 2 are its length`),
    );
  }
  row.append(copier(name, () => hex(item.message)));
  const show = () => {
    allow(row, whyNot());
    const { size } = item.flips;
    const [at] = item.flips;
    const changed = size === 1 ? `byte ${at}` : `${size} bytes`;
    tell(deliver, size === 0 ? `Deliver to the ${to}` : `Deliver with ${changed} changed`);
  };
  show();
  return { row, show };
}

function hashLine({ initiator, responder }) {
  if (!initiator || !responder) return undefined;
  const [a, b] = [hex(initiator), hex(responder)];
  if (a !== b) return element('p', 'hash', `hash: initiator ${a.slice(0, 16)}…, responder ${b.slice(0, 16)}…`);
  return element('p', 'hash', `hash at both parties ${a} `, copier('the hash', () => a));
}

const headOf = (entry) => {
  const name = named(messageName(entry));
  return `${name}${entry.number === undefined ? '' : `, from the ${entry.role}`}: ${entry.item.message.length} bytes`;
};

/**
 * The message that is shown: what delivers it, its bytes, and what came of it. It stays in its place until another one
 * is written or chosen.
 */
export class Current {
  #parts;
  #hands;
  #item;
  #entry;
  #shown = 0;
  #row;

  /**
   * `parts` are elements: `box`, `title`, `acts`, `body` and `more`. `hands` has `act(work)`, `whyNot()` and
   * `looked()`, which is called after another message is shown.
   */
  constructor(parts, hands) {
    this.#parts = parts;
    this.#hands = hands;
  }

  get item() {
    return this.#item;
  }

  /** Shows a message by the entry of its writing, or none. */
  pick(run, entry) {
    const { box, acts, body, more } = this.#parts;
    this.#item = entry?.item;
    this.#entry = entry;
    this.#shown = 0;
    box.hidden = !entry;
    for (const it of [acts, body, more]) it.replaceChildren();
    if (!entry) return;
    const { row, show } = deliverRow(run, entry, this.#hands);
    this.#row = show;
    acts.append(row);
    const flipped = () => { show(); this.#hands.looked(); };
    body.append(bytesView(run, entry.item, messageName(entry), flipped));
    more.append(element('div', 'hashes'), element('div', 'schedule-lists'));
    if (!(entry.payload?.length > 48)) return;
    body.append(
      element(
        'p',
        'payload',
        `payload: ${shown(entry.payload)} `,
        copier(`the payload of ${messageName(entry)} in hex`, () => hex(entry.payload)),
      ),
    );
  }

  /** After each thing done: a message that was written since is shown; of the one that is, what came of it. */
  show(run, isNew) {
    const newest = [...run?.log ?? []].reverse().find(({ kind }) => kind === 'wrote');
    if (!run || !newest) this.pick(run, undefined);
    else if (isNew || this.#item === undefined) this.pick(run, newest);
    if (!this.#item) return;
    const [head, fate] = [headOf(this.#entry), fateOf(this.#item)];
    const { title, more } = this.#parts;
    if (title.textContent !== `${head} ${fate}`) title.replaceChildren(head, ' ', element('span', 'fate', fate));
    this.#row();
    const entries = run.log.filter(({ item }) => item === this.#item);
    if (entries.length > this.#shown) {
      const hash = entries.at(-1).number === undefined ? undefined : hashLine(entries.at(-1).hash);
      more.querySelector('.hashes').replaceChildren(...(hash ? [hash] : []));
    }
    if (!this.#entry.isDatagram) {
      const details = (entry) =>
        scheduleDetails(
          run,
          (all) => all.entries.get(entry),
          messageName(entry),
          `Key schedule of ${entry.at}: the ${entry.role}`,
        );
      const added = entries.slice(this.#shown).map(details);
      more.querySelector('.schedule-lists').append(...added);
    }
    this.#shown = entries.length;
  }
}

function entryItem(run, entry, pick) {
  const isRefused = ['refused', 'unwritten'].includes(entry.kind);
  const li = element('li', isRefused ? 'refused' : entry.kind);
  const fate = element('span', 'fate');
  const line = element(
    'p',
    '',
    element('span', 'chip', CHIPS[entry.kind]),
    ' ',
    element('span', 'who', `${entry.at}. ${sentenceOf(run, entry)} `),
    fate,
  );
  if (entry.kind === 'wrote') {
    const made = button('Show', () => pick(entry), 'copy show');
    made.setAttribute('aria-label', `Show ${messageName(entry)}`);
    line.append(' ', made);
  }
  li.append(line);
  return { li, entry, fate };
}

/** The log: a line for each entry. Of many the oldest are left out until they are asked for. */
export class Log {
  #list;
  #more;
  #shown = [];
  #run;
  #pick;

  /** `pick(entry)` is called to show the message that an entry tells of. */
  constructor(list, more, pick) {
    Object.assign(this, { isWhole: false });
    this.#list = list;
    this.#more = more;
    this.#pick = pick;
    more.addEventListener('click', () => {
      this.isWhole = true;
      this.#limit();
      const next = this.#list.children[SHOWN]?.querySelector('p');
      if (next) next.tabIndex = -1;
      next?.focus();
    });
  }

  show(run) {
    if (run !== this.#run) {
      this.#list.replaceChildren();
      Object.assign(this, { isWhole: false });
      this.#shown = [];
      this.#run = run;
    }
    for (const entry of run?.log.slice(this.#shown.length) ?? []) {
      const made = entryItem(run, entry, this.#pick);
      this.#shown.push(made);
      this.#list.prepend(made.li);
    }
    for (const { fate, entry } of this.#shown) if (entry.kind === 'wrote') tell(fate, fateOf(entry.item));
    return this.#limit();
  }

  #limit() {
    const { length } = this.#shown;
    const isShort = this.isWhole || length <= SHOWN;
    [...this.#list.children].forEach((li, n) => {
      li.hidden = !isShort && n >= SHOWN && !li.contains(document.activeElement);
    });
    this.#more.hidden = isShort;
    tell(this.#more, `Show ${length - SHOWN} earlier ${length - SHOWN === 1 ? 'entry' : 'entries'}`);
  }
}

/** The keys of a run: public ones, and the pre-shared secrets; and the start of its key schedule. */
export function showKeys(box, run) {
  const row = (name, bytes) =>
    element(
      'p',
      'key',
      element('span', '', `${name} `),
      element('code', '', hex(bytes)),
      ' ',
      copier(name, () => hex(bytes)),
    );
  const publicOf = (role) =>
    ['e', 's'].filter((own) => run[role].keys[own]).map((own) =>
      row(`${named(role)}’s ${own}, public`, run[role].keys[own].publicKey),
    );
  const secretsOf = (role, name) => run[role].psks.map((psk, n) => row(`${name} ${n + 1}, a secret of this run`, psk));
  const secrets = run.hasOwnPsks
    ? ROLES.flatMap((role) => secretsOf(role, `${named(role)}’s psk`))
    : secretsOf('initiator', 'psk');
  const linesOf = ({ start }) => start.filter((line) => line.startsWith('trace initiator '));
  const schedule = scheduleDetails(
    run,
    linesOf,
    'the start',
    'Key schedule before message 1, the same at both parties',
  );
  box.replaceChildren(...ROLES.flatMap(publicOf), ...secrets, schedule);
}

/**
 * Draws the window of datagrams that a party keeps: the nonces up to the greatest one that it has opened. This is the
 * page's own account.
 */
export function showWindows(box, run) {
  box.replaceChildren();
  if (!run?.isOpen || run.setup.mode !== 'datagrams') return;
  for (const role of ROLES) {
    const { opened } = run[role];
    const { window } = run.setup;
    const top = opened.size ? Math.max(...opened) : -1;
    const first = Math.max(0, top - window + 1);
    const grid = element('div', 'window');
    for (let n = first; n < first + window; n += 1) {
      grid.append(element('i', n === top ? 'top' : opened.has(n) ? 'opened' : ''));
    }
    const count = [...opened].filter((n) => n >= first).length;
    const label = top < 0
      ? `The ${role} has opened no datagram; its window has ${window} nonces.`
      : `The ${role}’s window: nonces ${first} to ${top}, of which ${count} ${count === 1 ? 'is' : 'are'} `
        + 'opened; older ones are refused.';
    grid.setAttribute('aria-hidden', 'true');
    box.append(element('div', '', element('p', '', label), grid));
  }
}
