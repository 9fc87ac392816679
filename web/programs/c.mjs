// A pattern as a program in C, over include/noise.h and OpenSSL.
import { guide, lines, octalEscape, quoted } from './text.mjs';

/** What both programs in C have: X25519 by OpenSSL. */
export const HELPERS = `typedef struct {
    EVP_PKEY *secret;
    uint8_t public[32];
} key_pair;

static void must(int holds, const char *what) {
    if (holds) return;
    fprintf(stderr, "%s\\n", what);
    exit(1);
}

static key_pair draw(void) {
    key_pair pair = {EVP_PKEY_Q_keygen(NULL, NULL, "X25519"), {0}};
    size_t len = 32;
    must(pair.secret && EVP_PKEY_get_raw_public_key(pair.secret, pair.public, &len) == 1, "no key pair");
    return pair;
}

// OpenSSL fails if the result is all zeros.
static void x25519(const key_pair *own, const uint8_t remote[32], uint8_t dh_result[32]) {
    size_t len = 32;
    EVP_PKEY *other = EVP_PKEY_new_raw_public_key(EVP_PKEY_X25519, NULL, remote, 32);
    EVP_PKEY_CTX *context = EVP_PKEY_CTX_new(own->secret, NULL);
    must(other && context && EVP_PKEY_derive_init(context) == 1
         && EVP_PKEY_derive_set_peer(context, other) == 1, "no X25519");
    must(EVP_PKEY_derive(context, dh_result, &len) == 1, "X25519 fails for this public key");
    EVP_PKEY_CTX_free(context);
    EVP_PKEY_free(other);
}

static void set(noise_key *key, const key_pair *pair) {
    key->present = 1;
    memcpy(key->bytes, pair->public, 32);
}
`;

const STEP = `// Writes the next message, and returns its length; or reads it.
static size_t step(party *p, int writes, uint8_t message[NOISE_MAX_MESSAGE], size_t len) {
    noise_result result;
    uint8_t dh_result[32];
    uint32_t code;
    while ((code = writes ? noise_write(&p->handshake, NULL, 0, message, NOISE_MAX_MESSAGE, &result)
                          : noise_read(&p->handshake, message, len, &result)) == NOISE_WANTED) {
        x25519(result.of_static ? &p->s : &p->e, result.remote, dh_result);
        must(noise_answer(&p->handshake, result.of_static, result.remote, dh_result) == NOISE_OK, "noise_answer");
    }
    must(code == NOISE_OK, noise_text(code));
    return writes ? result.len : 0;
}
`;

/** A statement for both parties, for one of them, or for none. */
function forParty(who, statement) {
  if (who.initiator && who.responder) return `    ${statement}`;
  if (!who.initiator && !who.responder) return undefined;
  return `    if (${who.initiator ? '!' : ''}responder) ${statement}`;
}

function start({ has, knows, knowsEphemeral, psks }) {
  const usesOther = [knows, knowsEphemeral].some((who) => who.initiator || who.responder);
  return lines(
    'static void start(party *p, const party *other, uint8_t responder) {',
    '    noise_setup setup = {.responder = responder};',
    !usesOther && '    (void)other;',
    '    set(&setup.e, &p->e);    // a new key pair for each handshake',
    forParty(has, 'set(&setup.s, &p->s);'),
    forParty(knows, 'set(&setup.remote_s, &other->s);'),
    forParty(knowsEphemeral, 'set(&setup.remote_e, &other->e);'),
    psks > 0 && ['    setup.psk_count = PSKS;', '    memcpy(setup.psks, psks, sizeof psks);'],
    '    uint32_t code = noise_start(&p->handshake, (const uint8_t *)pattern, sizeof pattern - 1, '
      + '(const uint8_t *)prologue, sizeof prologue - 1, &setup);',
    '    must(code == NOISE_OK, noise_text(code));',
    '    noise_wipe(&setup, sizeof setup);',
    '}',
  );
}

/**
 * For each mode the call that ends the handshake, its two structs, and where it has messages the calls that seal and
 * open one.
 */
export const KINDS = {
  transport: ['noise_finish', 'noise_sender', 'noise_receiver', 'noise_seal', 'noise_open'],
  stream: ['noise_finish_stream', 'noise_stream_sender', 'noise_stream_receiver'],
  datagrams: [
    'noise_finish_datagrams',
    'noise_datagram_sender',
    'noise_datagram_receiver',
    'noise_datagram_seal',
    'noise_datagram_open',
  ],
};

const MESSAGE = (seal, open) => lines(
  `    must(${seal}(&client.sender, (const uint8_t *)"hello", 5, message, sizeof message, `
    + '&result) == NOISE_OK, "not sealed");',
  `    must(${open}(&server.receiver, message, result.len, &result) == NOISE_OK, "not opened");`,
  '    printf("the server reads: %.*s\\n", (int)result.len, (const char *)message + result.from);',
).trimEnd();

const STREAM = lines(
  '    must(noise_stream_write(&client.sender, (const uint8_t *)"hello", 5, message, sizeof message, '
    + '&result) == NOISE_OK, "not written");',
  '    size_t at = 0, len = result.len;',
  '    must(noise_stream_end(&client.sender, message + len, sizeof message - len, &result) == NOISE_OK, "not ended");',
  '    len += result.len;    // all that the connection carries',
  '    uint32_t code;',
  '    while ((code = noise_stream_read(&server.receiver, message + at, len - at, &result)) == NOISE_OK) {',
  '        printf("the server reads: %.*s\\n", (int)result.len, (const char *)message + at + result.from);',
  '        at += result.used;',
  '    }',
  '    must(code == NOISE_END, noise_text(code));    // at NOISE_MORE receive more; '
    + 'if the connection ends then, the stream is cut',
).trimEnd();

/** What compares the other party's static key with the one that is expected, where the pattern has one. */
const COMPARE = `// The other party's static key has to be the one that you expect.
static void compare(const party *p, const key_pair *expected) {
    noise_key key;
    must(noise_remote_static(&p->handshake, &key) == NOISE_OK && key.present, "no static key");
    must(memcmp(key.bytes, expected->public, sizeof key.bytes) == 0, "another static key");
}
`;

function main({ psks, mode, interval, window, has }) {
  const [finish, , , seal, open] = KINDS[mode];
  const option = mode === 'datagrams' ? window : interval;
  return lines(
    'int main(void) {',
    '    static party client, server;',
    `    static uint8_t message[${mode === 'stream' ? 'NOISE_MAX_FRAME' : 'NOISE_MAX_MESSAGE'}];`,
    '    noise_stage_result stage;',
    `    ${mode === 'stream' ? 'noise_stream_result' : 'noise_result'} result;`,
    '    client.e = draw(), client.s = draw(), server.e = draw(), server.s = draw();',
    psks > 0 && '    must(RAND_bytes(psks[0], sizeof psks) == 1, "no random bytes");',
    '    start(&client, &server, 0);',
    '    start(&server, &client, 1);',
    '    while (noise_stage(&client.handshake, &stage) == NOISE_OK && stage.passed < stage.messages) {',
    '        party *from = stage.writes_next ? &client : &server, *to = stage.writes_next ? &server : &client;',
    '        step(to, 0, message, step(from, 1, message, 0));    // a network comes between the two calls',
    '    }',
    has.responder && '    compare(&client, &server.s);',
    has.initiator && '    compare(&server, &client.s);',
    `    must(${finish}(&client.handshake, ${option}, &client.sender, &client.receiver) == NOISE_OK, `
      + `"the client isn't done");`,
    `    must(${finish}(&server.handshake, ${option}, &server.sender, &server.receiver) == NOISE_OK, `
      + `"the server isn't done");`,
    '    noise_wipe(&client.handshake, sizeof client.handshake);',
    '    noise_wipe(&server.handshake, sizeof server.handshake);',
    mode === 'stream' ? STREAM : MESSAGE(seal, open),
    '    noise_wipe(&client, sizeof client);',
    '    noise_wipe(&server, sizeof server);',
    '    return 0;',
    '}',
  );
}

/** The pattern as an array of char: its protocol name, or its text. */
export const patternText = ({ isNamed, section, lines: all }) => (isNamed
  ? [`static const char pattern[] = "Noise_${section}_25519_ChaChaPoly_SHA256";`]
  : ['static const char pattern[] =', ...all.map((line, n) => `    "${line}\\n"${n === all.length - 1 ? ';' : ''}`)]);

export function c(facts) {
  const { section, name, prologue, psks, mode, has } = facts;
  const [, sender, receiver] = KINDS[mode];
  return lines(
    `// The pattern ${section}: both parties in one program. At the top of the repository, with OpenSSL's headers:`,
    `//     cc -I include ${name}.c dist/noise_c.S -lcrypto -o ${name}`, `// The guide: ${guide('C')}`,
    '#include "noise.h"',
    '#include <openssl/evp.h>',
    psks > 0 && '#include <openssl/rand.h>',
    '#include <stdio.h>', '#include <stdlib.h>', '#include <string.h>', '',
    patternText(facts),
    `static const char prologue[] = ${quoted(prologue, octalEscape)};`,
    psks > 0 && [`enum { PSKS = ${psks} };`, 'static uint8_t psks[PSKS][32];    // in the order of the psk tokens'],
    '',
    HELPERS,
    'typedef struct {',
    '    key_pair e, s;',
    '    noise_handshake handshake;',
    `    ${sender} sender;`,
    `    ${receiver} receiver;`,
    '} party;', '',
    start(facts), STEP, (has.initiator || has.responder) && COMPARE, main(facts).trimEnd(),
  );
}
