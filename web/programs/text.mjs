// What the programs in all languages need: literals, lines that are there only if something holds, and of the program
// of one party how its keys are made, and what it says.

/** The bytes of a text between quotes: each that isn't printable ASCII as an escape. */
export function quoted(text, escape) {
  const bytes = Array.from(new TextEncoder().encode(text), (byte) => {
    const character = String.fromCharCode(byte);
    if (character === '"' || character === '\\') return `\\${character}`;
    return byte >= 0x20 && byte < 0x7f ? character : escape(byte);
  });
  return `"${bytes.join('')}"`;
}

export const hexEscape = (byte) => `\\x${byte.toString(16).padStart(2, '0')}`;
export const octalEscape = (byte) => `\\${byte.toString(8).padStart(3, '0')}`;

/** Lines joined, without those that are undefined or false. */
export const lines = (...all) =>
  all.flat(Infinity).filter((line) => line !== undefined && line !== false).map((line) => `${line}\n`).join('');

/** The address of the source tree, as the packages have it: packaging/address replaces it. */
const homepage = 'https://example.org/yulimosar';
/** The address of a guide. */
export const guide = (name) => `${homepage}/docs/${name}.md`;

/** Where the server of a program waits. */
export const PORT = 4050;
/** What each party says, and what the client says with message 1, where that is encrypted. */
export const SAID = { client: 'hello', server: 'and hello', early: 'early hello' };

/**
 * The first lines of the program of one party, as comments: what it is, how it is built, and how its keys are made.
 * `command` runs it, and `how` says how it is built, a line each.
 */
export function partyHead(facts, comment, command, how) {
  const { section, own, other, hasOwn, hasOther, knowsOther, psks, isDatagrams } = facts;
  const secrets = Array.from({ length: psks }, (_, n) => `psk${n + 1}`).join(', ');
  const head = lines(
    `The ${own} of the pattern ${section}, over ${isDatagrams ? 'UDP' : 'TCP'}.`, ...how,
    isDatagrams && ['Each message is sent once. How what is lost is sent again:', guide('UDP')],
    hasOwn && [
      `Its key, which stays here, and the public key for the ${other}:`,
      `    (umask 077; openssl rand -hex 32 >${own}.key)`,
      `    ${command} public >${own}.public`,
    ],
    hasOther && `It needs ${other}.public too, by a way that nobody else can write to.`,
    hasOther && !knowsOther && 'The key that comes in a message has to be that one.',
    psks > 0 && `Both need ${secrets}: 32 bytes${psks > 1 ? ' each' : ''} in hex that nobody else knows.`,
  );
  return head.trimEnd().split('\n').map((line) => `${comment} ${line}`);
}

/** What stands in place of the program of one party, where the parties have to exchange an ephemeral key first. */
export const noParty = ({ section }, comment) =>
  `${comment} ${section} has an ephemeral key before "...": the two exchange it before each handshake. `
  + 'Take the program of both parties.\n';

/** What has to be known of a payload that comes with message 1. */
export const REPLAYED = 'it may come again, from a recording';
