// Runs the suite of test vectors with an implementation in JavaScript.
import { createHash } from 'node:crypto';
import { readFileSync, writeFileSync } from 'node:fs';
import { pathToFileURL } from 'node:url';
import { parseArgs } from 'node:util';

const USAGE = `usage: node runner.mjs PARTY.mjs SUITE.json [JUNIT.xml] [--only WORDS]

PARTY.mjs is a module beside this file, as party_yulimosar.mjs, whose \`Party\` calls an implementation: copy that.
--only runs a part: the tests that have one of the words, which are joined by commas, as number, pattern or flag. The
report has a line for each flag, and says whether the flag is of a kind of cases or of a mistake. Then come the tests
that failed: first those in which something was accepted that has to be refused. JUNIT.xml gets each test. The status is
0 if no test failed, 1 if one did, and 2 if nothing was run.`;

const SHOWN = 400; // digits of wrong bytes

/** What the Noise doesn't claim to do: the test isn't run. */
class NotSupported extends Error {}

/** What is wrong. */
class Failed extends Error {}

/** The words of the command line name nothing that can be run. */
class Unusable extends Error {}

const hex = (bytes) => Buffer.from(bytes ?? []).toString('hex');
const dataOf = (value) =>
  (typeof value === 'string' ? Buffer.from(value, 'hex') : Buffer.alloc(value.count, value.byte, 'hex'));

/** A test of a group, with the parties that take part in it. */
class Run {
  constructor(group, test, Party) {
    Object.assign(this, { group, test, Party, parties: {}, written: [] });
  }

  async party(role) {
    const setup = { ...this.group, prologue: dataOf(this.group.prologue), NotSupported };
    this.parties[role] ??= await this.Party.start(setup, role);
    return this.parties[role];
  }

  /** The bytes that a step reads, with the step's change. */
  received(step) {
    let whole;
    if (step.bytes !== undefined) whole = dataOf(step.bytes);
    else {
      const { message } = this.group.messages[step.message];
      whole = typeof message === 'string' ? dataOf(message) : this.written[step.message];
    }
    const data = Buffer.concat([whole.subarray(0, step.cut ?? whole.length), dataOf(step.append ?? '')]);
    if (step.xor) data[step.xor[0]] ^= step.xor[1];
    return data;
  }

  async call(party, step) {
    switch (step.do) {
      case 'start':
        return undefined;
      case 'write':
        return party.write(dataOf(step.payload ?? this.group.messages[step.message].payload));
      case 'read':
        return party.read(this.received(step));
      case 'rekey':
        return party.rekey(step.direction);
      case 'nonce':
        return party.setNonce(step.direction, BigInt(step.nonce));
      case 'remote':
        return party.remoteStatic();
      default:
        return party.hash();
    }
  }

  /** Compares what a step gave with what the suite says. */
  compare(step, got) {
    const message = step.message === undefined ? {} : this.group.messages[step.message];
    let wanted = step.is ?? '';
    if (step.do === 'write') {
      this.written[step.message ?? 0] = got;
      wanted = step.is ?? message.message;
      if (wanted.sha256) [wanted, got] = [wanted.sha256, createHash('sha256').update(got).digest()];
    } else if (step.do === 'read') wanted = hex(dataOf(step.payload ?? message.payload));
    else if (step.do === 'hash') wanted = this.group.hash;
    if (hex(got) !== wanted) {
      throw new Failed(`${step.do}: ${hex(got).slice(0, SHOWN)} in place of ${wanted.slice(0, SHOWN)}`);
    }
  }

  /** Takes a step; whether the test goes on after it. */
  async step(step) {
    let party;
    let got;
    try {
      party = await this.party(step.role ?? this.test.role);
    } catch (error) {
      if (!this.Party.isRefusal(error)) throw error;
      if (this.test.steps[0].optional) return false;
      throw new Failed(`the start was refused: ${error}`);
    }
    try {
      got = await this.call(party, step);
    } catch (error) {
      if (!this.Party.isRefusal(error)) throw error;
      if (step.refused === undefined) {
        if (step.optional) return false;
        throw new Failed(`${step.do} was refused: ${error}`);
      }
      const token = party.token(error);
      if (token !== undefined && token !== step.token) {
        throw new Failed(`refused at token ${token}, in place of ${step.token}`);
      }
      return true;
    }
    if (step.refused !== undefined) {
      const at = step.at === undefined ? '' : ` at ${step.at}`;
      throw new Failed(`${step.do} was accepted, and has to be refused: ${step.refused}${at}`);
    }
    this.compare(step, got);
    return true;
  }

  /** Takes all steps; whether none was refused that may be. */
  async run() {
    for (const [number, step] of this.test.steps.entries()) {
      try {
        if (!(await this.step(step))) return false;
      } catch (error) {
        if (error instanceof Failed) error.message = `step ${number}: ${error.message}`;
        throw error;
      }
    }
    return true;
  }
}

/** A test of a set-up, which is that of the test: if it is wrong, the start or a later step has to be refused. */
async function runStart(test, Party) {
  let isThrough;
  try {
    isThrough = await new Run(test, test, Party).run();
  } catch (error) {
    if (!(error instanceof Failed) || test.result !== 'invalid') throw error;
    isThrough = true;
  }
  if (isThrough && test.result === 'invalid') {
    throw new Failed(`the set-up was taken, and has to be refused: ${test.place}`);
  }
}

/** What comes of a test, `passed`, `failed` or `not run`, and why. */
async function outcome(group, test, Party) {
  try {
    if (group.type === 'NoiseStart') await runStart(test, Party);
    else if (group.type === 'NoiseHandshake') await new Run(group, test, Party).run();
    else throw new NotSupported("frames are the caller's");
  } catch (error) {
    if (error instanceof NotSupported) return ['not run', error.message];
    return ['failed', error instanceof Failed ? error.message : `crashed: ${error}`];
  }
  return ['passed', ''];
}

const patternName = (group) => group.protocol?.split('_')[1] ?? group.type.slice(5).toLowerCase();

/** The tests that failed, by their first flag: those first that accept what has to be refused. */
function failures(rows, flags) {
  const order = new Map(flags.map((it, at) => [it, at]));
  const failed = rows.filter(({ what }) => what === 'failed')
    .sort((one, two) => order.get(one.test.flags[0]) - order.get(two.test.flags[0]));
  const isAccepted = ({ why }) => why.includes('and has to be refused');
  return [['accepted, and has to be refused', true], ['other failures', false]].flatMap(([head, is]) => {
    const some = failed.filter((it) => isAccepted(it) === is);
    const lines = some.map(
      ({ test, pattern, why }) => `failed ${test.tcId} ${pattern} ${test.flags}: ${test.comment}: ${why}`,
    );
    return some.length ? [`${head}: ${some.length}`, ...lines] : [];
  });
}

function textReport(rows, notes) {
  const counts = new Map();
  const total = { passed: 0, failed: 0, 'not run': 0 };
  const reasons = new Map();
  for (const { test, what, why } of rows) {
    total[what] += 1;
    if (what === 'not run') reasons.set(why, (reasons.get(why) ?? 0) + 1);
    for (const flag of test.flags) {
      if (!counts.has(flag)) counts.set(flag, { passed: 0, failed: 0, 'not run': 0 });
      counts.get(flag)[what] += 1;
    }
  }
  const line = (name, kind, ...cells) => `${name.padEnd(28)} ${kind.padEnd(7)} `
    + `${cells.map((it) => String(it).padStart(7)).join(' ')}`;
  const lines = [line('flag', 'kind', 'passed', 'failed', 'not run')];
  for (const [flag, it] of counts) lines.push(line(flag, notes[flag].kind, it.passed, it.failed, it['not run']));
  lines.push(...failures(rows, [...counts.keys()]));
  for (const [why, count] of reasons) lines.push(`not run ${count}: ${why}`);
  return [...lines, `${total.passed} passed, ${total.failed} failed, ${total['not run']} not run`, ''].join('\n');
}

const quoted = (text) => `"${text.replace(/[&<>"]/g, (it) => `&#${it.charCodeAt(0)};`)}"`;

function junitReport(name, rows) {
  const count = (it) => rows.filter(({ what }) => what === it).length;
  const lines = ['<?xml version="1.0" encoding="UTF-8"?>'];
  lines.push(
    `<testsuite name=${quoted(name)} tests="${rows.length}" failures="${count('failed')}" `
      + `skipped="${count('not run')}">`,
  );
  for (const { test, pattern, what, why } of rows) {
    const inside = {
      passed: '',
      failed: `<failure message=${quoted(why)}/>`,
      'not run': `<skipped message=${quoted(why)}/>`,
    }[what];
    lines.push(
      `  <testcase classname=${quoted(test.flags[0])} `
        + `name=${quoted(`${test.tcId} ${pattern}: ${test.comment}`)}>${inside}</testcase>`,
    );
  }
  return [...lines, '</testsuite>', ''].join('\n');
}

/** The tests of the groups, each with its group: those that `only` names, or all. */
function chosen(groups, only) {
  const wanted = new Set(only === undefined ? [] : only.split(','));
  const found = new Set();
  const tests = [];
  for (const group of groups) {
    const pattern = patternName(group);
    for (const test of group.tests) {
      const has = [String(test.tcId), pattern, ...test.flags].filter((it) => wanted.has(it));
      has.forEach((it) => found.add(it));
      if (only === undefined || has.length > 0) tests.push({ group, test, pattern });
    }
  }
  for (const it of wanted) if (!found.has(it)) throw new Unusable(`no test has the number, pattern or flag ${it}`);
  return tests;
}

async function main() {
  const options = { only: { type: 'string' }, help: { type: 'boolean', short: 'h' } };
  const { values, positionals } = parseArgs({ options, allowPositionals: true });
  const [module, path, junit] = positionals;
  if (values.help) console.log(USAGE);
  if (values.help) return 0;
  if (!path || positionals.length > 3) throw new Unusable(USAGE);
  const { Party } = await import(pathToFileURL(module));
  const suite = JSON.parse(readFileSync(path, 'utf8'));
  const rows = [];
  for (const { group, test, pattern } of chosen(suite.testGroups, values.only)) {
    const [what, why] = await outcome(group, test, Party);
    rows.push({ test, pattern, what, why });
  }
  process.stdout.write(textReport(rows, suite.notes));
  if (junit) writeFileSync(junit, junitReport(module, rows));
  return rows.some(({ what }) => what === 'failed') ? 1 : 0;
}

try {
  process.exitCode = await main();
} catch (error) {
  if (!(error instanceof Unusable) && !error.code) throw error;
  console.error(error.message);
  process.exitCode = 2;
}
