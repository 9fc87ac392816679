// datagrams-test.mjs FILE: runs the cases of vectors/datagrams.json by datagrams.mjs.
import { deepEqual } from 'node:assert/strict';
import { readFile } from 'node:fs/promises';
import * as rules from './datagrams.mjs';

const cases = JSON.parse(await readFile(process.argv[2], 'utf8'));
const bytes = (digits) => Buffer.from(digits, 'hex');
const hex = (it) => it?.toString('hex') ?? null;
const nonce = (digits) => (digits === null ? undefined : BigInt(`0x${digits}`));
let count = 0;
const same = (got, want, what) => {
  deepEqual(got, want, JSON.stringify(what));
  count += 1;
};

for (const it of cases.kinds) {
  const datagram = Buffer.alloc(it.length, 7);
  if (it.firstByte !== null) datagram[0] = it.firstByte;
  same(rules.kindOf(datagram, it.messages), it.kind, it);
}
for (const it of cases.hosts) same(rules.hostOf({ address: it.ip }), it.host, it);
for (const it of cases.cookies) {
  const [from, message] = [{ address: it.ip, port: it.port }, bytes(it.message)];
  const cookie = rules.cookieOf(bytes(it.secret), from, message);
  same(
    [rules.addressBytes(from), cookie, rules.replyOf(message, cookie), rules.withCookie(cookie, message)].map(hex),
    [it.address, it.cookie, it.reply, it.again], it);
}
for (const it of cases.replies) same(hex(rules.cookieIn(bytes(it.reply), bytes(it.message))), it.cookie, it);
const { secrets, steps, ip, port, message } = cases.secrets;
const cookies = new rules.Cookies(() => bytes(secrets.shift()));
for (const it of steps) {
  const now = it.milliseconds / 1000;
  same(cookies.accept(bytes(it.cookie), { address: ip, port }, bytes(message), now), it.accepted, it);
}
for (const it of cases.firsts) {
  same(rules.firstMessage(it.halfDone, it.busy, it.shown, it.came, it.answer), it.does, it);
}
for (const it of cases.sends) same(rules.maySend(it.came, it.sent, it.length, it.shown), it.may, it);
const rate = new rules.Rate();
for (const it of cases.rates) {
  const may = Array.from({ length: it.count }, () => rate.allow(it.host, it.milliseconds / 1000));
  same(may.filter(Boolean).length, it.begin, it);
}
for (const it of cases.givesWay) same(rules.givesWay(it.begun), it.place, it);
for (const it of cases.moves) same(rules.moves(nonce(it.nonce), nonce(it.newest)), it.moves, it);
for (const it of cases.indices) same(rules.indexOf(bytes(it.lastMessage)), it.index, it);
console.log(`datagrams: ${count} cases`);
