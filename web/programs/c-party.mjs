// One party of a pattern as a program in C, over include/noise.h, OpenSSL and POSIX sockets.
import { HELPERS, KINDS, patternText } from './c.mjs';
import { PORT, REPLAYED, SAID, guide, lines, noParty, octalEscape, partyHead, quoted } from './text.mjs';

const LOAD = `// The 32 bytes of a file, which has them in 64 hexadecimal digits.
static void load(const char *file, uint8_t bytes[32]) {
    FILE *it = fopen(file, "r");
    must(it != NULL, file);
    for (int n = 0; n < 32; n++) must(fscanf(it, "%2hhx", &bytes[n]) == 1, file);
    fclose(it);
}
`;

const LOAD_PAIR = `static key_pair load_pair(const char *file) {
    uint8_t secret[32];
    size_t len = 32;
    load(file, secret);
    key_pair pair = {EVP_PKEY_new_raw_private_key(EVP_PKEY_X25519, NULL, secret, 32), {0}};
    must(pair.secret && EVP_PKEY_get_raw_public_key(pair.secret, pair.public, &len) == 1, file);
    noise_wipe(secret, sizeof secret);
    return pair;
}
`;

const AT = `    struct sockaddr_in at = {.sin_family = AF_INET, .sin_port = htons(${PORT}), `
  + '.sin_addr.s_addr = htonl(INADDR_LOOPBACK)};';

/** What makes the connection: over TCP of one client, over UDP with who sends first. */
function connection({ isServer, isDatagrams }) {
  const kind = isDatagrams ? 'SOCK_DGRAM' : 'SOCK_STREAM';
  const waits = ['    puts("the server waits");', '    fflush(stdout);'];
  const bound = 'bind(it, (struct sockaddr *)&at, sizeof at) == 0';
  const made = {
    client: ['    must(it >= 0 && connect(it, (struct sockaddr *)&at, sizeof at) == 0, "no server");'],
    tcp: [
      '    int yes = 1;', '    setsockopt(it, SOL_SOCKET, SO_REUSEADDR, &yes, sizeof yes);',
      `    must(${bound} && listen(it, 1) == 0, "the port isn't free");`, waits,
      '    int client = accept(it, NULL, NULL);    // one is served', '    must(client >= 0, "no client");',
      '    close(it);', '    it = client;',
    ],
    udp: [
      `    must(${bound}, "the port isn't free");`, waits, '    char byte;', '    socklen_t len = sizeof at;',
      '    must(recvfrom(it, &byte, 1, MSG_PEEK, (struct sockaddr *)&at, &len) >= 0',
      '         && connect(it, (struct sockaddr *)&at, len) == 0, "no client");',
    ],
  }[isServer ? isDatagrams ? 'udp' : 'tcp' : 'client'];
  return lines(
    'static int connection(void) {', AT, '    struct timeval limit = {.tv_sec = 10};',
    `    int it = socket(AF_INET, ${kind}, 0);`,
    made.flat(), '    setsockopt(it, SOL_SOCKET, SO_RCVTIMEO, &limit, sizeof limit);', '    return it;', '}',
  );
}

const FRAMES = `static void send_all(int to, const uint8_t *bytes, size_t len) {
    for (ssize_t some; len > 0; bytes += some, len -= (size_t)some)
        must((some = send(to, bytes, len, MSG_NOSIGNAL)) > 0, "the connection broke off");
}

static void receive_all(int from, uint8_t *bytes, size_t len) {
    for (ssize_t some; len > 0; bytes += some, len -= (size_t)some)
        must((some = recv(from, bytes, len, 0)) > 0, "the connection has ended, or nothing came for 10 seconds");
}

// A message stands in the buffer after its length in two bytes, and comes so.
static void send_message(int to, size_t len) {
    buffer[0] = (uint8_t)(len >> 8), buffer[1] = (uint8_t)len;
    send_all(to, buffer, len + 2);
}

static size_t receive_message(int from) {
    receive_all(from, buffer, 2);
    size_t len = (size_t)buffer[0] << 8 | buffer[1];
    receive_all(from, buffer + 2, len);
    return len;
}
`;

const DATAGRAMS = `// A message stands in the buffer from its third byte on.
static void send_message(int to, size_t len) {
    must(send(to, buffer + 2, len, 0) == (ssize_t)len, "not sent");
}

static size_t receive_message(int from) {
    ssize_t len = recv(from, buffer + 2, sizeof buffer - 2, 0);
    must(len >= 0, "nothing came for 10 seconds");
    return (size_t)len;
}
`;

const HANDSHAKE = (hasOwn) => `// X25519 for the calls of a handshake.
static int dh(void *context, uint8_t of_static, const uint8_t remote[32], uint8_t result[32]) {
    (void)context${hasOwn ? '' : ', (void)of_static'};
    x25519(${hasOwn ? 'of_static ? &s : &e' : '&e'}, remote, result);
    return 1;
}

static void write_message(noise_handshake *h, int to, const char *payload) {
    noise_result result;
    uint32_t code = noise_write_with(h, (const uint8_t *)payload, strlen(payload), buffer + 2, NOISE_MAX_MESSAGE,
                                     &result, dh, NULL);
    must(code == NOISE_OK, noise_text(code));
    send_message(to, result.len);
}

// The payload stands in the buffer then, at 2 + from.
static noise_result read_message(noise_handshake *h, int from) {
    noise_result result;
    uint32_t code = noise_read_with(h, buffer + 2, receive_message(from), &result, dh, NULL);
    must(code == NOISE_OK, noise_text(code));
    return result;
}
`;

function start(facts) {
  const { own, other, isServer, hasOwn, hasOther, knowsOther, psks } = facts;
  return lines(
    hasOwn && [
      `    s = load_pair("${own}.key");`, '    if (count == 2 && strcmp(words[1], "public") == 0) {',
      '        for (int n = 0; n < 32; n++) printf("%02x", s.public[n]);',
      '        puts("");', '        return 0;', '    }',
    ],
    hasOther && [`    uint8_t ${other}[32];`, `    load("${other}.public", ${other});`],
    `    noise_setup setup = {.responder = ${isServer ? 1 : 0}, .psk_count = ${psks}};`,
    Array.from({ length: psks }, (_, n) => `    load("psk${n + 1}", setup.psks[${n}]);`),
    '    e = draw();    // a new key pair for each handshake', '    set(&setup.e, &e);',
    hasOwn && '    set(&setup.s, &s);',
    knowsOther && ['    setup.remote_s.present = 1;', `    memcpy(setup.remote_s.bytes, ${other}, 32);`],
    '    static noise_handshake handshake;',
    '    uint32_t code = noise_start(&handshake, (const uint8_t *)pattern, sizeof pattern - 1, '
      + '(const uint8_t *)prologue, sizeof prologue - 1, &setup);',
    '    must(code == NOISE_OK, noise_text(code));',
    '    noise_wipe(&setup, sizeof setup);',
  );
}

function handshake({ other, isServer, hasOther, isEarly, mode, interval, window }) {
  const [finish, sender, receiver] = KINDS[mode];
  return lines(
    '    int other = connection();', '    noise_stage_result stage;',
    isEarly && (isServer
      ? [
        '    noise_result first = read_message(&handshake, other);', '    char early[100];',
        '    int early_len = first.len < sizeof early ? (int)first.len : (int)sizeof early;',
        '    memcpy(early, buffer + 2 + first.from, (size_t)early_len);',
      ]
      : `    write_message(&handshake, other, "${SAID.early}");    // ${REPLAYED}`),
    '    while (noise_stage(&handshake, &stage) == NOISE_OK && stage.passed < stage.messages) {',
    '        if (stage.writes_next) write_message(&handshake, other, "");',
    '        else read_message(&handshake, other);', '    }',
    hasOther && [
      '    noise_key key;', '    must(noise_remote_static(&handshake, &key) == NOISE_OK && key.present',
      `         && memcmp(key.bytes, ${other}, 32) == 0, "this isn't the ${other}");`,
    ],
    isServer && isEarly
      && `    printf("with message 1 came: %.*s\\n", early_len, early);    // ${REPLAYED}`,
    `    static ${sender} sender;`, `    static ${receiver} receiver;`,
    `    code = ${finish}(&handshake, ${mode === 'datagrams' ? window : interval}, &sender, &receiver);`,
    '    must(code == NOISE_OK, noise_text(code));',
    '    noise_wipe(&handshake, sizeof handshake);',
  );
}

/** Sends a text and the stream's end, or one message; and prints what comes. */
function talk({ own, isServer, oneWay, mode, isStream }) {
  const [, , , seal, open] = KINDS[mode];
  const text = SAID[own];
  const said = `(const uint8_t *)"${text}", ${text.length}`;
  const print = (indent, from) =>
    `${indent}printf("the ${own} reads: %.*s\\n", (int)result.len, (const char *)buffer + ${from}result.from);`;
  const send = isStream
    ? [
      `    must(noise_stream_write(&sender, ${said}, buffer, sizeof buffer, &result) == NOISE_OK, "not written");`,
      '    send_all(other, buffer, result.len);',
      '    must(noise_stream_end(&sender, buffer, sizeof buffer, &result) == NOISE_OK, "not ended");',
      '    send_all(other, buffer, result.len);',
    ]
    : [
      `    must(${seal}(&sender, ${said}, buffer + 2, sizeof buffer - 2, &result) == NOISE_OK, "not sealed");`,
      '    send_message(other, result.len);',
    ];
  const read = isStream
    ? [
      '    while ((code = noise_stream_read(&receiver, buffer, receive_message(other) + 2, &result)) == NOISE_OK)',
      print('        ', ''), '    must(code == NOISE_END, noise_text(code));',
    ]
    : [
      `    must(${open}(&receiver, buffer + 2, receive_message(other), &result) == NOISE_OK, "not opened");`,
      print('    ', '2 + '),
    ];
  if (oneWay) return isServer ? read : send;
  return isServer ? [...read, ...send] : [...send, ...read];
}

export function cParty(facts) {
  const { name, own, prologue, isDatagrams, isStream, hasOwn, hasOther, psks } = facts;
  if (facts.hasEphemeral) return noParty(facts, '//');
  const program = `${name}-${own}`;
  return lines(
    partyHead(facts, '//', `./${program}`, [
      'At the top of the repository, with OpenSSL\'s headers:',
      `    cc -I include ${program}.c dist/noise_c.S -lcrypto -o ${program}`, `The guide: ${guide('C')}`,
    ]),
    '#include "noise.h"', '#include <arpa/inet.h>', '#include <openssl/evp.h>', '#include <stdio.h>',
    '#include <stdlib.h>', '#include <string.h>', '#include <sys/socket.h>', '#include <sys/time.h>',
    '#include <unistd.h>', '',
    patternText(facts),
    `static const char prologue[] = ${quoted(prologue, octalEscape)};`,
    'static uint8_t buffer[2 + NOISE_MAX_DATAGRAM];', '',
    HELPERS,
    (hasOwn || hasOther || psks > 0) && LOAD,
    hasOwn && LOAD_PAIR,
    `static key_pair e${hasOwn ? ', s' : ''};`, '',
    connection(facts), isDatagrams ? DATAGRAMS : FRAMES, HANDSHAKE(hasOwn),
    hasOwn ? 'int main(int count, char **words) {' : 'int main(void) {',
    start(facts).trimEnd(),
    handshake(facts).trimEnd(),
    `    ${isStream ? 'noise_stream_result' : 'noise_result'} result;`,
    talk(facts),
    '    close(other);',
    '    noise_wipe(&sender, sizeof sender);', '    noise_wipe(&receiver, sizeof receiver);', '    return 0;', '}',
  );
}
