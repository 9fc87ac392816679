// Streams with an end between the parties of a run, by the calls of bindings/js/stream.mjs: what each side reports
// comes from them. What a party does after a refusal is the page's: it sends nothing more, no end either. No DOM here.
import { hex, hexOrDash, joined } from './bytes.mjs';
import { OTHER, ROLES, numberOf } from './party.mjs';

const left = ({ held }) => ({ copyTo: (place) => place.set(held.subarray(0, place.length)) });

/** Why a party can write nothing more, or undefined. */
export function silence(run, role) {
  const party = run[role];
  if (run.isClosed) return 'the connection is closed';
  if (party.isBroken) return 'it has refused a message, and sends nothing after that, no end either';
  return party.hasEnded ? 'it has ended its stream' : undefined;
}

/** The frame of a payload, which a field of the page or a link fits into one, or without one that of the end. */
export function frameOf(party, payload) {
  if (payload === undefined) {
    const frame = party.sealer.end();
    party.hasEnded = true;
    return frame;
  }
  const [frame] = party.sealer.write([payload]);
  return frame;
}

/** Reads one frame at the start of what a party holds: what came of it, or undefined where bytes are lacking. */
function readOne(party) {
  const { wanted, used, value } = party.sealer.read(left(party), party.held.length);
  if (wanted > 0) return undefined;
  party.held = party.held.slice(used);
  if (value === undefined) party.sawEnd = true;
  else party.payloads += 1;
  party.taken += 1;
  return { payload: value };
}

/** Bytes come to a party: all that it reads of them, in order, each `{ payload }`, `{ code }` or `{ wanted }`. */
export function take(run, role, bytes) {
  const party = run[role];
  if (party.isBroken || party.sawEnd) return [{ isUnread: true }];
  party.held = joined(party.held, bytes);
  const outcomes = [];
  while (party.held.length > 0 && !party.sawEnd) {
    try {
      const outcome = readOne(party);
      if (!outcome) return [...outcomes, { wanted: party.held.length }];
      outcomes.push(outcome);
    } catch (error) {
      if (error.code === undefined) throw error;
      party.isBroken = true;
      return [...outcomes, { code: numberOf(error) }];
    }
  }
  return outcomes;
}

/** What a party reports once the connection is closed. */
export function reportOf(run, role) {
  const party = run[role];
  const count = `${party.payloads} ${party.payloads === 1 ? 'payload' : 'payloads'}`;
  if (run.plan.oneWay && role === 'initiator') return 'nothing comes to it in a one-way pattern';
  if (party.isBroken) return `the refusal, after ${count}`;
  if (!party.sealer.isCut(party.held.length)) {
    return `the end of the ${OTHER[role]}’s stream, after all of it: ${count}`;
  }
  const more = party.held.length ? ` and ${party.held.length} bytes of an unfinished message` : '';
  return `a cut: the connection has ended before the ${OTHER[role]}’s stream did, after ${count}${more}`;
}

/**
 * The lines that `noise replay` prints of what came, for the vector file: it has payloads in the place of streams, and
 * an end is one of no bytes.
 */
export function linesOf(role, outcomes) {
  return outcomes.map(({ payload, code, wanted }) => {
    if (code !== undefined) return `dropped ${role} ${{ 15: 'short', 16: 'tag' }[code]}`;
    return wanted !== undefined
      ? `held ${role} ${wanted}`
      : `payload ${role} ${hexOrDash(payload ?? new Uint8Array(0))}`;
  });
}

export const reports = (run) => Object.fromEntries(ROLES.map((role) => [role, reportOf(run, role)]));
export const rawOf = (role, bytes) => `raw ${role} ${hex(bytes)}`;
