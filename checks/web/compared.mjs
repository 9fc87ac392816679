// The page and the command say the same of a log: compared.mjs PROGRAM TOP. Of each vector file of the repository the
// page works out the lines that `noise trace` prints; and of logs that are right, lack lines, have other words or other
// values, it says where the first difference is, and which values, as `noise compare` does before it names mistakes.
import assert from 'node:assert/strict';
import { spawnSync } from 'node:child_process';
import { readFileSync, readdirSync } from 'node:fs';
import { join } from 'node:path';
import { load } from '../../bindings/js/module.mjs';
import { compareLog, rightLines } from '../../web/compare.mjs';
import { WrongFile, scheduleOfVector } from '../../web/vectorrun.mjs';

const [program, top] = process.argv.slice(2);
const ROLES = ['initiator', 'responder'];
/** Files that the page can't run: the command refuses all but the first, of which it prints a line for what failed. */
const REFUSED = [
  'no-dh-result.vector', 'leading-zero.vector', 'no-ephemeral-key.vector', 'psk-index.vector', 'rule.vector',
];

/** Numbers below a bound, the same in each run (a linear congruence modulo 2^32). */
function numbers(start) {
  let seed = start;
  return (most) => {
    seed = (Math.imul(seed, 1664525) + 1013904223) >>> 0;
    return Math.floor(seed / 2 ** 32 * most);
  };
}

const next = numbers(105);
const isDrawn = (one, of) => next(of) < one;

function files() {
  const folders = ['examples/vectors', 'examples/vectors/mistakes'].map((it) => join(top, it));
  return folders.flatMap((folder) =>
    readdirSync(folder).filter((it) => it.endsWith('.vector')).map((name) => ({ name, path: join(folder, name) })),
  );
}

/** The schedule of each file that runs, which is that of `noise trace`, role by role. */
async function schedules() {
  const found = [];
  for (const { name, path } of files()) {
    const traced = spawnSync(program, ['trace', path], { encoding: 'utf8' }).stdout
      .split('\n').filter((it) => it.startsWith('trace '));
    const text = readFileSync(path, 'utf8');
    if (REFUSED.includes(name)) {
      await assert.rejects(scheduleOfVector(text), WrongFile, name);
    } else {
      const own = await scheduleOfVector(text);
      const of = (lines, role) => lines.filter((line) => line.split(' ')[1] === role);
      for (const role of ROLES) assert.deepEqual(of(own, role), of(traced, role), `${name}: ${role}`);
      found.push({ name, path, lines: traced });
    }
  }
  return found;
}

/** A hex digit of a value is another one, or the nonce. */
function withOtherValue(line) {
  const words = line.split(' ');
  const place = 7 + next(5);
  if (place === 11 && /^\d+$/.test(words[11])) words[11] = String(Number(words[11]) + 1);
  else words[place] = words[place] === '-' ? 'ab' : words[place].replace(/.$/, (it) => (it === '0' ? '1' : '0'));
  return words.join(' ');
}

const unsaid = (line) => line.split(' ').map((word, n) => (n > 6 && isDrawn(1, 5) ? '?' : word)).join(' ');

/** What people's logs look like. */
const FORMS = [
  (line) => line, (line) => line, (line) => line.toUpperCase().replace('TRACE', 'trace'),
  (line) => `2026-01-02 debug: ${line}`, (line) => line.replaceAll(' ', '\t').replace('\t', ' '), (line) => `${line}\r`,
  (line) => line.replace(/ ([0-9a-f]{64}) /g, ' 0x$1 '), (line) => line.replace(/ ([0-9a-f]{64}) /g, " b'$1' "),
  (line) => `TRACE noise: ${line}`, (line) => line.replace(/ - (\d+)$/, ' None 00$1'),
  (line) => line.replace(/ - (\d+)$/, ` ${'0'.repeat(64)} $1`),
  (line) => line.replace(/ [0-9a-f]{64} (\d+)$/, isDrawn(1, 20) ? ' nil $1' : ' $&'),
];

/** A log made of right lines: lines lack, are unsaid, differ, change places, or are no lines of a schedule. */
function drawnLog(lines) {
  const kind = next(8);
  const role = ROLES[next(2)];
  let log = isDrawn(1, 2) ? lines.filter((line) => line.split(' ')[1] === role) : [...lines];
  if (kind > 0) log = log.filter(() => !isDrawn(1, [1e9, 12, 6, 3, 8, 1e9, 12, 5][kind]));
  if (kind > 2) log = log.map((line) => (isDrawn(1, 2) ? unsaid(line) : line));
  if ([4, 5, 6].includes(kind) && log.length) {
    const n = next(log.length);
    log[n] = withOtherValue(log[n]);
  }
  if (kind === 6 && log.length > 2) log.push(...log.splice(next(log.length), 1));
  if (kind === 7) log = log.slice(0, 1 + next(log.length || 1));
  if (isDrawn(1, 6)) log.splice(next(log.length + 1), 0, 'a line of something else');
  if (isDrawn(1, 25)) log.splice(next(log.length + 1), 0, 'trace initiator 1 0 e');
  if (isDrawn(1, 4)) {
    const late = log.map((line) => (/ transport - (?:sent|opened) /.test(line) ? withLateNonce(line) : line));
    log = isDrawn(1, 2) ? late : log;
  }
  const form = FORMS[next(FORMS.length)];
  const text = log.map((line) => `${form(line)}\n`).join('');
  return isDrawn(1, 4) ? text.slice(0, text.length - 1 - next(100)) : text;
}

/** A party that logs n after the message. */
function withLateNonce(line) {
  const words = line.split(' ');
  return [...words.slice(0, 11), String(Number(words[11]) + 1)].join(' ');
}

/** What the command says of a log, without what it says of mistakes. */
function commanded(log, path) {
  const ran = spawnSync(program, ['compare', '-', path], { input: log, encoding: 'utf8' });
  if (ran.status === 2) return { fault: ran.stderr.trim().replace(/^fault -: /, '') };
  const all = ran.stdout.trimEnd().split('\n');
  const passed = /^lines passed over: (\d+)$/m.exec(ran.stdout);
  const cut = all.find((line) => line.startsWith('the last line, '));
  const rest = all.slice(1).findIndex((line) => !/^(?:right|yours|lines of Split compared:) /.test(line));
  const text = all.slice(0, rest < 0 ? undefined : rest + 1)
    .filter((line) => !/^(?:lines passed over|the last line, )/.test(line));
  return { text, skipped: passed ? Number(passed[1]) : 0, cut, status: ran.status };
}

await load();
const all = await schedules();
const met = { agrees: 0, ends: 0, differs: 0, fault: 0 };
for (let n = 0; n < 500; n += 1) {
  const { name, path, lines } = all[n % all.length];
  const log = drawnLog(lines);
  const { fault, finding, text, skipped, cut } = compareLog(log, rightLines(lines));
  const said = commanded(log, path);
  assert.equal(fault, said.fault, `${name}: ${log}`);
  if (!fault) assert.deepEqual({ text, skipped, cut, status: Number(finding !== 'agrees') }, said, `${name}: ${log}`);
  met[finding ?? 'fault'] += 1;
}
for (const [finding, count] of Object.entries(met)) assert.ok(count >= 15, `${finding}: ${count} logs`);
console.log(
  `web: the page says of 500 logs what noise compare says (${met.agrees} agree, ${met.ends} end early, ${met.differs} `
    + `differ, ${met.fault} can’t be compared), and works out the key schedules of ${all.length} vector files`,
);
