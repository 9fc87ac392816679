// The vector file of a run, version 2, with the lines that `noise replay` prints. It has no streams: their frames are
// those of the transport, and an end is the message of an empty payload.
import { hex, hexOrDash } from './bytes.mjs';
import { ROLES } from './party.mjs';
import { protocolName } from './patterns.mjs';

function stateLine(run, role) {
  const party = run[role];
  if (party.ended) return `state ${role} ended`;
  if (party.isIn('datagrams') && run.isOpen) return `state ${role} datagrams ${party.sealer.nonce}`;
  if (!party.sealer) return `state ${role} handshake ${party.handshake.stage.passed}`;
  const stream = { send: party.sent, receive: party.taken };
  const { send, receive } = { datagrams: { send: 0, receive: 0 }, stream }[party.mode] ?? party.sealer.nonces;
  return `state ${role} transport ${send} ${receive} ${hex(party.sealer.hash)}`;
}

function keysOf(run, role) {
  const { e, s } = run[role].keys;
  const answersOf = (asked) =>
    [...asked?.answers ?? []].map(([remote, answer]) => `answer ${asked.own} ${remote} ${hex(answer)}`);
  return [`${role} table ${hex(e.publicKey)} ${s ? hex(s.publicKey) : '-'}`, ...answersOf(e), ...answersOf(s)];
}

export function vectorFile(run) {
  const { text, prologue, interval, isOwn } = run.setup;
  const { section, base } = run.plan;
  const lines = [
    'vector 2', `protocol ${protocolName(section)}`,
    ...(isOwn ? [text.trimEnd(), 'end'] : []),
    `prologue ${hexOrDash(prologue)}`, `interval ${interval}`, ...run.psks.map((psk) => `psk ${hex(psk)}`),
    ...ROLES.flatMap((role) => keysOf(run, role)), ...run.events,
    ...[...run.lines, ...ROLES.map((role) => stateLine(run, role))].map((line) => `expect ${line}`),
  ];
  return { name: `${base}.vector`, text: `${lines.join('\n')}\n` };
}
