// All faults of a text that reading can see. The first is the library's; the others are this page's own reading of the
// format and of the five rules, and checks/web compares its first with the library's. There is no DOM here.
import { MOST, WORDS, firstOf } from './faults.mjs';
import { linesOf } from './plan.mjs';

const ROLES = ['initiator', 'responder'];
const DHS = ['ee', 'es', 'se', 'ss'];
const HEADING = /^[A-Z][A-Z0-9]{0,7}(?:psk[0-8](?:\+psk[0-8])*)?:$/;
/** For each role the DHs that rule 4 asks for, each with the one that it comes with. */
const NEEDS = { initiator: [['se', 'ee'], ['ss', 'es']], responder: [['es', 'ee'], ['ss', 'se']] };

const other = (role) => ROLES[1 - ROLES.indexOf(role)];

/** The kind of a malformed line that is read alone, or undefined. */
function formOf({ tokens }, isKnown) {
  if (!tokens) return 31;
  if (!tokens.every(({ name }) => WORDS.has(name))) return 32;
  return isKnown && !['e', 's', 'e,s'].includes(tokens.map(({ name }) => name).join()) ? 33 : undefined;
}

/** Whether a message has no token but psk, or too many. */
function isBeyond({ tokens }) {
  const count = tokens.filter(({ name }) => name !== 'psk').length;
  return count < 1 || count > MOST;
}

/** The malformed lines, by what each line says: arrows, tokens, turns, counts. */
function formFaults(lines) {
  const first = firstOf(lines);
  const found = HEADING.test(lines[0].line) ? [] : [{ line: 1, code: 30 }];
  const may = { known: [...ROLES], turn: ['initiator'] };
  lines.slice(1).forEach((line, at) => {
    const n = at + 1;
    if (line.line === '  ...') {
      return n === first - 1 ? undefined : found.push({ line: n + 1, code: n < first ? 33 : 31 });
    }
    const isKnown = n < first - 1;
    let code = formOf(line, isKnown);
    const turns = isKnown ? may.known : may.turn;
    if (code === undefined && !turns.includes(line.role)) code = isKnown ? 33 : 34;
    if (code === undefined && !isKnown && (n >= first + MOST || isBeyond(line))) code = 37;
    if (code !== undefined) found.push({ line: n + 1, code });
    if (isKnown) may.known = may.known.slice(may.known.indexOf(line.role) + 1);
    // After a line out of turn the next one may go on after it, or after the line that it stands for.
    else if (line.role) may.turn = code === 34 ? [...ROLES] : [other(line.role)];
    else may.turn = [...ROLES];
    return undefined;
  });
  if (lines.length <= first) found.push({ line: lines.length + 1, code: 38 });
  return found;
}

/** What of the rules is broken, each once: a token, or what is encrypted at a place. */
class Reading {
  constructor() {
    Object.assign(this, { known: new Set(), mixed: new Set(), found: [], met: new Set() });
  }

  /** A broken rule: what lacks is told once, and so is a rule at a place. */
  fault(key, place) {
    const at = `${place.rule} ${place.message} ${place.token}`;
    if (this.met.has(key) || this.met.has(at)) return;
    this.met.add(key).add(at);
    this.found.push({ ...place, code: 39 });
  }

  encrypts(role, place) {
    for (const [dh, first] of NEEDS[role]) {
      if (this.mixed.has(dh) && !this.mixed.has(first)) this.fault(`4 ${role} ${first}`, { rule: 4, ...place });
    }
    if (this.mixed.has('psk') && !this.known.has(`${role} e`)) this.fault(`5 ${role}`, { rule: 5, ...place });
  }

  token(role, name, place) {
    if (name === 'psk') this.mixed.add('psk');
    else if (DHS.includes(name)) {
      if (ROLES.some((owner, n) => !this.known.has(`${owner} ${name[n]}`))) {
        this.fault(`1 ${place.message} ${place.token}`, { rule: 1, ...place });
      }
      if (this.mixed.has(name)) this.fault(`3 ${place.message} ${place.token}`, { rule: 3, ...place });
      this.mixed.add(name);
    } else {
      if (this.known.has(`${role} ${name}`)) this.fault(`2 ${place.message} ${place.token}`, { rule: 2, ...place });
      if (name === 's') this.encrypts(role, place);
      this.known.add(`${role} ${name}`);
    }
  }
}

function ruleFaults(lines) {
  const first = firstOf(lines);
  const reading = new Reading();
  for (const { role, tokens } of lines.slice(1, Math.max(first - 1, 1))) {
    for (const { name } of tokens) reading.known.add(`${role} ${name}`);
  }
  const messages = lines.slice(first);
  messages.forEach(({ role, tokens }, n) => {
    tokens.forEach(({ name }, token) => reading.token(role, name, { message: n + 1, token }));
    reading.encrypts(role, { message: n + 1, token: tokens.length });
  });
  const ways = messages.length === 1 ? ROLES.slice(0, 1) : ROLES;
  ways.forEach((role, token) => reading.encrypts(role, { message: messages.length + 1, token }));
  return reading.found;
}

const keyOf = ({ line, code, rule, message, token }) =>
  (rule ? `rule ${rule} ${message} ${token}` : `line ${line} ${code}`);

/**
 * What this page's reading finds: the malformed lines; and if all lines can be read as messages in turn, the broken
 * rules.
 */
export function readingOf(text) {
  const lines = linesOf(text);
  const forms = formFaults(lines);
  const isReadable = lines.slice(1).every(({ line, tokens }) =>
    tokens?.every(({ name }) => WORDS.has(name)) || line === '  ...',
  );
  const inTurn = forms.every(({ code }) => code === 30) && lines.length > firstOf(lines);
  return [...forms, ...(isReadable && inTurn ? ruleFaults(lines) : [])];
}

/** All faults of a refused text, the library's first. */
export function faultsOf(text, verdict) {
  const key = keyOf(verdict);
  return [
    verdict,
    ...readingOf(text).filter((fault) => keyOf(fault) !== key && !(fault.line && fault.line === verdict.line)),
  ];
}
