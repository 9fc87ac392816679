// Runs the suite of test vectors with an implementation in C: runner SUITE.json [JUNIT.xml] [--only WORDS]. Compile it
// beside a file of yours that has the functions below whose names begin with party_; that includes this file, after a
// line #define PARTY_ONLY, for their declarations. party_yulimosar.c is the library of this repository: copy it.
#include <stddef.h>
#include <stdint.h>

// What this asks of a Noise: write these functions for yours, as party_yulimosar.c does for the library of this
// repository.

enum { PARTY_OK = 0, PARTY_REFUSED = 1, PARTY_NOT_SUPPORTED = 2, PARTY_ROOM = 66000 };

typedef struct {
    int has_e, has_s, has_re, has_rs;
    uint8_t e[32], s[32];        // the party's private keys
    uint8_t re[32], rs[32];      // the other party's public keys that are known beforehand
} party_keys;

typedef struct {
    const char *protocol;        // the protocol name
    const char *what;            // "name" if that is tested: read it, and not the pattern
    const char *pattern;         // the pattern text: "NAME:\n  -> e\n  <- e, ee\n"
    const uint8_t *prologue;
    size_t prologue_len;
    int psk_count;
    uint8_t psks[9][32];
    int responder;
    party_keys keys;
} party_setup;

typedef struct party party;

// Starts a party: one of the codes above. A set-up that is wrong is refused.
int party_start(const party_setup *setup, party **made);
void party_end(party *p);

// These return one of the codes above. After the handshake they write and read transport messages.
// out has PARTY_ROOM bytes.
int party_write(party *p, const uint8_t *payload, size_t len, uint8_t *out, size_t *out_len);
int party_read(party *p, const uint8_t *message, size_t len, uint8_t *out, size_t *out_len);
int party_rekey(party *p, int receive);
int party_set_nonce(party *p, int receive, uint64_t nonce);
int party_hash(party *p, uint8_t hash[32]);
// The other party's static key, after the handshake.
int party_remote_static(party *p, uint8_t key[32]);

// The token at which the last message was refused, from 0; -1 if the Noise doesn't say so.
int party_token(const party *p);

// Frames, a length in 2 big-endian bytes before a message: makes one; and finds the message of one, whose length is -1
// if the frame isn't whole.
int party_frame(const uint8_t *message, size_t len, uint8_t *out, size_t *out_len);
int party_unframe(const uint8_t *bytes, size_t len, size_t *from, long *message_len);

// SHA-256, of whatever library.
void party_sha256(const uint8_t *data, size_t len, uint8_t digest[32]);

#ifndef PARTY_ONLY
#include <ctype.h>
#include <stdio.h>
#include <stdlib.h>
#include <string.h>

// A small reader of JSON: enough for the suite. A value is a tree in memory that is never freed.
typedef struct json {
    char type;           // { [ " 0 (a number), t f n
    const char *key;     // in an object
    const char *text;    // of a string, with a zero at its end
    long number;
    struct json *first;  // of an object or an array
    struct json *next;   // beside it
    size_t count;        // of an array
} json;

static json *value(char **at);

static void space(char **at) {
    while (isspace((unsigned char)**at)) ++*at;
}

// A string, whose escapes are only those of single characters: the suite has no others.
static char *string(char **at) {
    char *from = *at + 1, *to = from, *start = from;
    while (*from && *from != '"') {
        if (*from == '\\') ++from;
        *to++ = *from++;
    }
    if (!*from) return NULL;
    *at = from + 1;
    *to = 0;
    return start;
}

static json *members(char **at, json *whole) {
    const char end = whole->type == '{' ? '}' : ']';
    json **last = &whole->first;
    ++*at;
    for (space(at); **at != end; space(at)) {
        char *key = NULL;
        if (end == '}') {
            if (**at != '"' || !(key = string(at))) return NULL;
            space(at);
            if (*(*at)++ != ':') return NULL;
        }
        if (!(*last = value(at))) return NULL;
        (*last)->key = key;
        last = &(*last)->next;
        whole->count++;
        space(at);
        if (**at == ',') ++*at;
        else if (**at != end) return NULL;
    }
    ++*at;
    return whole;
}

static json *value(char **at) {
    json *made = calloc(1, sizeof *made);
    space(at);
    if (!made || !**at) return NULL;
    made->type = **at;
    if (**at == '{' || **at == '[') return members(at, made);
    if (**at == '"') return (made->text = string(at)) ? made : NULL;
    if (isalpha((unsigned char)**at)) {
        while (isalpha((unsigned char)**at)) ++*at;
        return made;
    }
    char *end;
    made->type = '0';
    made->number = strtol(*at, &end, 10);
    if (end == *at) return NULL;
    *at = end;
    return made;
}

// Reads a text, which it changes; NULL if that is no JSON.
static json *json_read(char *text) { return value(&text); }

// The member of an object; NULL if there is none.
static const json *json_get(const json *object, const char *key) {
    for (const json *it = object ? object->first : NULL; it; it = it->next)
        if (it->key && !strcmp(it->key, key)) return it;
    return NULL;
}

// The text of a member; NULL if there is none.
static const char *json_text(const json *object, const char *key) {
    const json *it = json_get(object, key);
    return it ? it->text : NULL;
}

static int is_text(const json *object, const char *key, const char *text) {
    const char *found = json_text(object, key);
    return found && !strcmp(found, text);
}

enum { PASSED, FAILED, NOT_RUN };
enum { MOST_WHY = 1000, MOST_DIGITS = 400 };

typedef struct {
    const json *group, *test;
    int outcome;
    char *why;
} row;

typedef struct {
    const char *name;
    int counts[3];
} tally;

static row *rows;
static size_t row_count;
static tally flags[200], reasons[50];

static tally *tally_of(tally *all, const char *name) {
    while (all->name && strcmp(all->name, name)) ++all;
    all->name = name;
    return all;
}

// The pattern of a row, with its psk indices: its length, and where it starts.
static int pattern_of(const row *it, const char **at) {
    const char *protocol = json_text(it->group, "protocol");
    *at = protocol ? strchr(protocol, '_') + 1 : is_text(it->group, "type", "NoiseStart") ? "start" : "frame";
    return (int)strcspn(*at, "_");
}

// Notes what came of a test of a group; `why` is copied.
static void report_add(const json *group, const json *test, int outcome, const char *why) {
    if (!(row_count & (row_count - 1))) rows = realloc(rows, 2 * (row_count + 1) * sizeof *rows);
    if (!rows) abort();
    row *it = &rows[row_count++];
    *it = (row){.group = group, .test = test, .outcome = outcome, .why = malloc(strlen(why) + 1)};
    if (!it->why) abort();
    strcpy(it->why, why);
}

static void print_failure(const row *it) {
    const json *flag = json_get(it->test, "flags")->first;
    const char *pattern;
    int len = pattern_of(it, &pattern);
    printf("failed %ld %.*s", json_get(it->test, "tcId")->number, len, pattern);
    for (char mark = ' '; flag; flag = flag->next, mark = ',') printf("%c%s", mark, flag->text);
    printf(": %s: %s\n", json_text(it->test, "comment"), it->why);
}

// Prints the tests that failed, by their first flag: those that accept what has to be refused, or all others.
static void print_failures(int accepted) {
    size_t count = 0;
    for (int is_head = 1; is_head >= 0; is_head--) {
        for (const tally *flag = flags; flag->name; flag++)
            for (const row *it = rows; it < rows + row_count; it++) {
                const int is_accepted = strstr(it->why, "and has to be refused") != NULL;
                if (it->outcome != FAILED || is_accepted != accepted) continue;
                if (strcmp(json_get(it->test, "flags")->first->text, flag->name)) continue;
                if (is_head) count++;
                else print_failure(it);
            }
        const char *head = accepted ? "accepted, and has to be refused" : "other failures";
        if (is_head && count) printf("%s: %zu\n", head, count);
    }
}

// Prints a line for each flag, with its kind by the notes of the suite, and the tests that failed; how many those are.
static int report_print(const json *notes) {
    int total[3] = {0};
    for (size_t i = 0; i < row_count; i++) {
        total[rows[i].outcome]++;
        for (const json *flag = json_get(rows[i].test, "flags")->first; flag; flag = flag->next)
            tally_of(flags, flag->text)->counts[rows[i].outcome]++;
        if (rows[i].outcome == NOT_RUN) tally_of(reasons, rows[i].why)->counts[NOT_RUN]++;
    }
    printf("%-28s %-7s %7s %7s %7s\n", "flag", "kind", "passed", "failed", "not run");
    for (const tally *it = flags; it->name; it++) {
        const char *kind = json_text(json_get(notes, it->name), "kind");
        printf("%-28s %-7s %7d %7d %7d\n", it->name, kind ? kind : "", it->counts[PASSED], it->counts[FAILED],
            it->counts[NOT_RUN]);
    }
    print_failures(1);
    print_failures(0);
    for (const tally *it = reasons; it->name; it++) printf("not run %d: %s\n", it->counts[NOT_RUN], it->name);
    printf("%d passed, %d failed, %d not run\n", total[PASSED], total[FAILED], total[NOT_RUN]);
    return total[FAILED];
}

static void quoted(FILE *to, const char *text) {
    for (; *text; text++) {
        if (strchr("&<>\"", *text)) fprintf(to, "&#%d;", *text);
        else fputc(*text, to);
    }
}

// Writes the XML; 0 if that fails.
static int report_junit(const char *path, const char *name) {
    FILE *to = fopen(path, "w");
    int total[3] = {0};
    if (!to) return 0;
    for (size_t i = 0; i < row_count; i++) total[rows[i].outcome]++;
    fprintf(to,
        "<?xml version=\"1.0\" encoding=\"UTF-8\"?>\n<testsuite name=\"%s\" tests=\"%zu\" failures=\"%d\" "
        "skipped=\"%d\">\n",
        name, row_count, total[FAILED], total[NOT_RUN]);
    for (size_t i = 0; i < row_count; i++) {
        const json *test = rows[i].test;
        const char *pattern;
        int len = pattern_of(&rows[i], &pattern);
        fprintf(to, "  <testcase classname=\"%s\" name=\"%ld %.*s: ", json_get(test, "flags")->first->text,
            json_get(test, "tcId")->number, len, pattern);
        quoted(to, json_text(test, "comment"));
        fputs("\">", to);
        if (rows[i].outcome != PASSED) {
            fprintf(to, "<%s message=\"", rows[i].outcome == FAILED ? "failure" : "skipped");
            quoted(to, rows[i].why);
            fputs("\"/>", to);
        }
        fputs("</testcase>\n", to);
    }
    fputs("</testsuite>\n", to);
    return fclose(to) == 0;
}

enum { MOST_MESSAGES = 64 };

typedef struct {
    uint8_t *data;
    size_t len;
} bytes;

// A test that is being run.
typedef struct {
    const json *group, *test, *setup;
    party *parties[2];
    bytes written[MOST_MESSAGES];
    char why[MOST_WHY];
} run;

static uint8_t got[PARTY_ROOM];

static void *must(void *memory) {
    if (!memory) {
        fputs("runner: out of memory\n", stderr);
        exit(2);
    }
    return memory;
}

static bytes of_hex(const char *digits) {
    bytes made = {must(malloc(strlen(digits) / 2 + 1)), strlen(digits) / 2};
    for (size_t i = 0; i < made.len; i++) {
        unsigned value = 0;
        sscanf(digits + 2 * i, "%2x", &value);
        made.data[i] = (uint8_t)value;
    }
    return made;
}

// Bytes that are given as hex digits, or by a rule.
static bytes of_value(const json *value) {
    if (value->type == '"') return of_hex(value->text);
    bytes one = of_hex(json_text(value, "byte"));
    bytes made = {must(malloc((size_t)json_get(value, "count")->number + 1)), (size_t)json_get(value, "count")->number};
    memset(made.data, one.data[0], made.len);
    free(one.data);
    return made;
}

static const json *item(const json *array, long number) {
    const json *it = array->first;
    while (number--) it = it->next;
    return it;
}

static int key_of(const json *own, const char *name, uint8_t key[32]) {
    const char *digits = json_text(own, name);
    if (!digits) return 0;
    bytes made = of_hex(digits);
    memcpy(key, made.data, 32);
    free(made.data);
    return 1;
}

// The text of the group's pattern.
static void pattern_text(const json *group, char text[600]) {
    const char *name = strchr(json_text(group, "protocol"), '_') + 1;
    size_t len = (size_t)snprintf(text, 600, "%.*s:\n", (int)strcspn(name, "_"), name);
    for (const json *it = json_get(group, "pattern")->first; it; it = it->next)
        len += (size_t)snprintf(text + len, 600 - len, "  %s\n", it->text);
}

static int start(const json *group, int responder, party **made) {
    char pattern[600];
    const json *own = json_get(group, responder ? "responder" : "initiator");
    bytes prologue = of_value(json_get(group, "prologue"));
    party_setup setup = {
        .protocol = json_text(group, "protocol"),
        .what = json_text(group, "what") ? json_text(group, "what") : "",
        .pattern = pattern,
        .prologue = prologue.data,
        .prologue_len = prologue.len,
        .responder = responder,
    };
    if (!strcmp(setup.what, "lengths")) return PARTY_NOT_SUPPORTED; // keys are arrays of 32 bytes
    pattern_text(group, pattern);
    for (const json *it = json_get(group, "psks")->first; it; it = it->next) {
        bytes psk = of_hex(it->text);
        memcpy(setup.psks[setup.psk_count++], psk.data, 32);
        free(psk.data);
    }
    setup.keys.has_e = key_of(own, "e", setup.keys.e);
    setup.keys.has_s = key_of(own, "s", setup.keys.s);
    setup.keys.has_re = key_of(own, "re", setup.keys.re);
    setup.keys.has_rs = key_of(own, "rs", setup.keys.rs);
    int code = party_start(&setup, made);
    free(prologue.data);
    return code;
}

// The bytes that a step reads, with the step's change.
static bytes received(const run *r, const json *step, const json *message) {
    const json *given = json_get(step, "bytes"), *cut = json_get(step, "cut"), *change = json_get(step, "xor");
    const json *whole = given ? given : json_get(message, "message");
    bytes made;
    if (given || whole->type == '"') {
        made = of_value(whole);
    } else {
        made = r->written[json_get(step, "message")->number];
        uint8_t *copy = must(malloc(made.len + 1));
        made.data = memcpy(copy, made.data, made.len);
    }
    if (cut) made.len = (size_t)cut->number;
    if (json_text(step, "append")) {
        bytes more = of_hex(json_text(step, "append"));
        made.data = must(realloc(made.data, made.len + more.len + 1));
        memcpy(made.data + made.len, more.data, more.len);
        made.len += more.len;
        free(more.data);
    }
    if (change) made.data[change->first->number] ^= (uint8_t)change->first->next->number;
    return made;
}

// Puts bytes as hex digits, of which there is room for MOST_DIGITS.
static void to_hex(const uint8_t *data, size_t len, char digits[MOST_DIGITS + 1]) {
    digits[0] = 0;
    for (size_t i = 0; i < len && i < MOST_DIGITS / 2; i++) sprintf(digits + 2 * i, "%02x", data[i]);
}

// Whether these are the bytes that a step has to give: if not, the run says both.
static int same(run *r, const char *what, const json *wanted, const uint8_t *data, size_t len) {
    const char *sum = json_text(wanted, "sha256");
    bytes right = sum ? of_hex(sum) : of_value(wanted);
    uint8_t digest[32];
    char yours[MOST_DIGITS + 1], ours[MOST_DIGITS + 1];
    if (sum) {
        party_sha256(data, len, digest);
        data = digest;
        len = sizeof digest;
    }
    int is_same = right.len == len && !memcmp(right.data, data, len);
    to_hex(data, len, yours);
    to_hex(right.data, right.len, ours);
    if (!is_same) snprintf(r->why, sizeof r->why, "%s: %s in place of %s", what, yours, ours);
    free(right.data);
    return is_same;
}

// Makes the call of a step; `wanted` is what it has to give.
static int call(run *r, party *p, const json *step, const json **wanted, size_t *len) {
    const json *number = json_get(step, "message"), *payload = json_get(step, "payload"), *is = json_get(step, "is");
    const json *message = number ? item(json_get(r->group, "messages"), number->number) : NULL;
    const int receive = is_text(step, "direction", "receive");
    int code;
    if (is_text(step, "do", "write")) {
        bytes text = of_value(payload ? payload : json_get(message, "payload"));
        code = party_write(p, text.data, text.len, got, len);
        free(text.data);
        *wanted = is ? is : message ? json_get(message, "message") : NULL;
        if (code == PARTY_OK && number && number->number < MOST_MESSAGES) {
            bytes copy = {must(malloc(*len + 1)), *len};
            memcpy(copy.data, got, *len);
            free(r->written[number->number].data);
            r->written[number->number] = copy;
        }
    } else if (is_text(step, "do", "read")) {
        bytes data = received(r, step, message);
        code = party_read(p, data.data, data.len, got, len);
        free(data.data);
        *wanted = payload ? payload : message ? json_get(message, "payload") : NULL;
    } else if (is_text(step, "do", "rekey")) {
        code = party_rekey(p, receive);
    } else if (is_text(step, "do", "nonce")) {
        code = party_set_nonce(p, receive, strtoull(json_text(step, "nonce"), NULL, 10));
    } else if (is_text(step, "do", "start")) {
        code = PARTY_OK;
    } else {
        const int is_hash = is_text(step, "do", "hash");
        code = is_hash ? party_hash(p, got) : party_remote_static(p, got);
        *wanted = is_hash ? json_get(r->group, "hash") : is;
        *len = 32;
    }
    return code;
}

// Takes a step: PASSED if the test goes on, FAILED, NOT_RUN; or -1 if the test has passed.
static int take(run *r, const json *step) {
    const json *wanted = NULL, *token = json_get(step, "token");
    const char *refused = json_text(step, "refused"), *what = json_text(step, "do"), *role = json_text(step, "role");
    size_t len = 0;
    int responder = !strcmp(role ? role : json_text(r->test, "role"), "responder"), code = PARTY_OK;
    if (!r->parties[responder]) code = start(r->setup, responder, &r->parties[responder]);
    if (code != PARTY_OK) {
        const int may = json_get(json_get(r->test, "steps")->first, "optional") != NULL;
        const int is_refused = code == PARTY_REFUSED;
        snprintf(r->why, sizeof r->why, "%s", is_refused ? "the start was refused" : "the set-up isn't supported");
        return !is_refused ? NOT_RUN : may ? -1 : FAILED;
    }
    party *p = r->parties[responder];
    code = call(r, p, step, &wanted, &len);
    if (code == PARTY_NOT_SUPPORTED) {
        snprintf(r->why, sizeof r->why, "%s isn't supported", what);
        return NOT_RUN;
    }
    if (code == PARTY_REFUSED && !refused) {
        snprintf(r->why, sizeof r->why, "%s was refused", what);
        return json_get(step, "optional") ? -1 : FAILED;
    }
    if (code == PARTY_REFUSED) {
        if (party_token(p) < 0 || (token && token->number == party_token(p))) return PASSED;
        snprintf(r->why, sizeof r->why, "refused at token %d", party_token(p));
        return FAILED;
    }
    if (refused) {
        const char *at = json_text(step, "at");
        snprintf(r->why, sizeof r->why, "%s was accepted, and has to be refused: %s%s%s", what, refused,
            at ? " at " : "", at ? at : "");
        return FAILED;
    }
    return !wanted || same(r, what, wanted, got, len) ? PASSED : FAILED;
}

static void run_test(const json *group, const json *test) {
    // A test of a set-up has that itself: if it is wrong, the start or a later step has to be refused.
    const int is_start = is_text(group, "type", "NoiseStart"), is_wrong = is_text(test, "result", "invalid");
    run r = {.group = is_start ? test : group, .test = test, .setup = is_start ? test : group};
    int outcome = PASSED, number = 0;
    for (const json *step = json_get(test, "steps")->first; step && outcome == PASSED; step = step->next, number++)
        outcome = take(&r, step);
    char why[MOST_WHY + 40];
    if (is_start && is_wrong && (outcome == PASSED || outcome == FAILED)) {
        const char *place = json_text(test, "place");
        outcome = FAILED;
        snprintf(why, sizeof why, "the set-up was taken, and has to be refused: %s", place ? place : "");
    } else if (outcome == FAILED) {
        snprintf(why, sizeof why, "step %d: %s", number - 1, r.why);
    } else {
        snprintf(why, sizeof why, "%s", r.why);
    }
    report_add(group, test, outcome < 0 ? PASSED : outcome, why);
    for (int i = 0; i < 2; i++)
        if (r.parties[i]) party_end(r.parties[i]);
    for (int i = 0; i < MOST_MESSAGES; i++) free(r.written[i].data);
}

// A test of a frame: a whole one is the message with its length; of one that isn't whole nothing is read.
static void run_frame(const json *group, const json *test) {
    bytes message = of_hex(json_text(test, "message")), frame = of_hex(json_text(test, "frame"));
    int is_whole = is_text(test, "result", "valid"), fits = 1, code = PARTY_OK;
    size_t len = 0, from = 0;
    long found = -1;
    if (is_whole)
        fits = (code = party_frame(message.data, message.len, got, &len)) == PARTY_OK && len == frame.len
            && !memcmp(got, frame.data, len);
    if (code != PARTY_NOT_SUPPORTED) code = party_unframe(frame.data, frame.len, &from, &found);
    if (is_whole) fits = fits && found == (long)message.len && !memcmp(frame.data + from, message.data, message.len);
    else fits = found < 0;
    if (code == PARTY_NOT_SUPPORTED) report_add(group, test, NOT_RUN, "frames are the caller's");
    else report_add(group, test, fits ? PASSED : FAILED, fits ? "" : "another frame");
    free(message.data);
    free(frame.data);
}

static char *file_text(const char *path) {
    FILE *it = fopen(path, "rb");
    if (!it || fseek(it, 0, SEEK_END)) return NULL;
    long len = ftell(it);
    char *text = must(malloc((size_t)len + 1));
    rewind(it);
    text[fread(text, 1, (size_t)len, it)] = 0;
    fclose(it);
    return text;
}

static const char usage[] =
    "usage: runner SUITE.json [JUNIT.xml] [--only WORDS]\n\n"
    "It runs the suite, and reports. JUNIT.xml gets each test. --only runs a part: the tests that have one of the\n"
    "words, which are joined by commas, as number, pattern or flag. The status is 0 if no test failed, 1 if one did,\n"
    "and 2 if nothing was run.\n";

// The words of --only, each with how many tests it names.
static tally wanted[50];

// Reads the words of --only, and changes them.
static int read_wanted(char *only) {
    size_t count = 0;
    for (char *word = strtok(only, ","); word && count < 49; word = strtok(NULL, ",")) wanted[count++].name = word;
    return count > 0;
}

// Whether a test is to be run.
static int is_chosen(const json *group, const json *test) {
    const row it = {.group = group, .test = test};
    const char *pattern;
    const size_t len = (size_t)pattern_of(&it, &pattern);
    char number[30];
    int is = !wanted->name;
    snprintf(number, sizeof number, "%ld", json_get(test, "tcId")->number);
    for (tally *word = wanted; word->name; word++) {
        int has = !strcmp(number, word->name) || (len == strlen(word->name) && !strncmp(pattern, word->name, len));
        for (const json *flag = json_get(test, "flags")->first; flag; flag = flag->next)
            has |= !strcmp(flag->text, word->name);
        word->counts[0] += has;
        is |= has;
    }
    return is;
}

// Runs the tests; 0 if a word of --only names none.
static int run_all(const json *suite) {
    for (const json *group = json_get(suite, "testGroups")->first; group; group = group->next)
        for (const json *test = json_get(group, "tests")->first; test; test = test->next) {
            if (!is_chosen(group, test)) continue;
            if (is_text(group, "type", "NoiseFrame")) run_frame(group, test);
            else run_test(group, test);
        }
    for (const tally *word = wanted; word->name; word++) {
        if (word->counts[0]) continue;
        fprintf(stderr, "runner: no test has the number, pattern or flag %s\n", word->name);
        return 0;
    }
    return 1;
}

int main(int count, char **words) {
    const char *files[2] = {NULL, NULL};
    int file_count = 0, is_right = 1;
    for (int i = 1; i < count; i++) {
        if (!strcmp(words[i], "--help") || !strcmp(words[i], "-h")) return fputs(usage, stdout) < 0;
        if (!strcmp(words[i], "--only")) is_right &= ++i < count && read_wanted(words[i]);
        else if (file_count < 2) files[file_count++] = words[i];
        else is_right = 0;
    }
    if (!is_right || !file_count) return fputs(usage, stderr), 2;
    char *text = file_text(files[0]);
    json *suite = text ? json_read(text) : NULL;
    if (!json_get(suite, "testGroups")) return fprintf(stderr, "runner: %s is no suite\n", files[0]), 2;
    if (!run_all(suite)) return 2;
    int failed = report_print(json_get(suite, "notes"));
    if (files[1] && !report_junit(files[1], words[0])) return 2;
    return failed > 0;
}
#endif
