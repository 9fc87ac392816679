// Two parties of one handshake, each with a thread for its sending half and one for its receiving half, with no lock
// round a call: those of messages in order, and then those of datagrams. The messages pass through two queues, which
// have locks. And calls that take a struct as const, from two threads at once: it is on pages that can't be written.
#define _GNU_SOURCE
#include "ends.h"
#include <pthread.h>
#include <sys/mman.h>
#include <unistd.h>

enum { MESSAGES = 2000, LONG = 200, SLOTS = 16, QUESTIONS = 300 };

typedef struct {
    pthread_mutex_t lock;
    pthread_cond_t changed;
    uint8_t slots[SLOTS][LONG + NOISE_DATAGRAM_OVERHEAD];
    size_t lens[SLOTS];
    unsigned put, taken;
} queue;

// One struct of each type that calls take as const.
typedef struct {
    noise_handshake h;
    transport t;
    datagrams d;
    stream x;
    noise_cipher c;
} asked;

static queue queues[2];                                  // by the role of who sends
static noise_sender senders[2];
static noise_receiver receivers[2];
static noise_datagram_sender datagram_senders[2];
static noise_datagram_receiver datagram_receivers[2];
static bool are_datagrams;                               // set before the threads begin

static uint32_t seal(unsigned own, const uint8_t *payload, size_t len, uint8_t *out, size_t out_len,
                     noise_result *result) {
    if (are_datagrams) return noise_datagram_seal(&datagram_senders[own], payload, len, out, out_len, result);
    return noise_seal(&senders[own], payload, len, out, out_len, result);
}

static uint32_t open_one(unsigned own, uint8_t *message, size_t len, noise_result *result) {
    if (are_datagrams) return noise_datagram_open(&datagram_receivers[own], message, len, result);
    return noise_open(&receivers[own], message, len, result);
}

static void *send_all(void *role) {
    unsigned own = *(const unsigned *)role;
    queue *q = &queues[own];
    for (unsigned n = 0; n < MESSAGES; n++) {
        uint8_t payload[LONG], message[LONG + NOISE_DATAGRAM_OVERHEAD];
        noise_result result;
        size_t len = n % LONG;
        fill(payload, len, n + own);
        MUST(seal(own, payload, len, message, sizeof message, &result) == NOISE_OK);
        pthread_mutex_lock(&q->lock);
        while (q->put - q->taken == SLOTS) pthread_cond_wait(&q->changed, &q->lock);
        memcpy(q->slots[q->put % SLOTS], message, result.len);
        q->lens[q->put++ % SLOTS] = result.len;
        pthread_cond_signal(&q->changed);
        pthread_mutex_unlock(&q->lock);
    }
    return NULL;
}

static void *receive_all(void *role) {
    unsigned own = *(const unsigned *)role;
    queue *q = &queues[!own];
    for (unsigned n = 0; n < MESSAGES; n++) {
        uint8_t payload[LONG], message[LONG + NOISE_DATAGRAM_OVERHEAD];
        noise_result result;
        pthread_mutex_lock(&q->lock);
        while (q->put == q->taken) pthread_cond_wait(&q->changed, &q->lock);
        size_t len = q->lens[q->taken % SLOTS];
        memcpy(message, q->slots[q->taken++ % SLOTS], len);
        pthread_cond_signal(&q->changed);
        pthread_mutex_unlock(&q->lock);
        MUST(open_one(own, message, len, &result) == NOISE_OK && result.len == n % LONG);
        fill(payload, result.len, n + !own);
        MUST(!memcmp(message + result.from, payload, result.len));
    }
    return NULL;
}

static void pass_messages(bool datagrams) {
    static const unsigned roles[2] = {0, 1};
    pthread_t threads[4];
    are_datagrams = datagrams;
    for (unsigned role = 0; role < 2; role++) {
        MUST(pthread_create(&threads[2 * role], NULL, send_all, (void *)&roles[role]) == 0);
        MUST(pthread_create(&threads[2 * role + 1], NULL, receive_all, (void *)&roles[role]) == 0);
    }
    for (unsigned i = 0; i < 4; i++) MUST(pthread_join(threads[i], NULL) == 0);
    printf("c-library: two parties in four threads passed %d %s each way\n", MESSAGES,
        datagrams ? "datagrams" : "messages");
}

// Each call that takes an opaque struct as const, again and again, on one struct of each type:
// two threads do so at once.
static void *ask_all(void *of) {
    const asked *a = of;
    for (unsigned n = 0; n < QUESTIONS; n++) {
        uint64_t nonce;
        uint8_t hash[32];
        noise_key key;
        noise_stage_result stage;
        size_t len;
        transport t;
        datagrams d;
        stream x;
        noise_cipher send, receive;
        MUST(noise_hash(&a->h, hash) == NOISE_OK && noise_remote_static(&a->h, &key) == NOISE_OK
            && noise_stage(&a->h, &stage) == NOISE_OK);
        MUST(noise_message_len(&a->h, 3, &len) == NOISE_NOT_DUE);
        MUST(finish(&a->h, 7, &t) == NOISE_OK && finish_datagrams(&a->h, 64, &d) == NOISE_OK);
        MUST(finish_cipher_states(&a->h, &send, &receive) == NOISE_OK && finish_stream(&a->h, 7, &x) == NOISE_OK);
        MUST(noise_stream_is_cut(&a->x.r, 0) == NOISE_CUT);
        MUST(noise_sender_nonce(&a->t.s, &nonce) == NOISE_OK && noise_receiver_nonce(&a->t.r, &nonce) == NOISE_OK);
        MUST(noise_datagram_sender_nonce(&a->d.s, &nonce) == NOISE_OK && noise_cipher_nonce(&a->c, &nonce) == NOISE_OK);
    }
    return NULL;
}

static void ask_at_once(const end *x) {
    size_t page = (size_t)sysconf(_SC_PAGESIZE), room = (sizeof(asked) + page - 1) / page * page;
    noise_cipher receive;
    pthread_t threads[2];
    asked *a = mmap(0, room, PROT_READ | PROT_WRITE, MAP_PRIVATE | MAP_ANONYMOUS, -1, 0);
    MUST(a != MAP_FAILED);
    a->h = x->h;
    MUST(finish(&x->h, 7, &a->t) == NOISE_OK && finish_datagrams(&x->h, 64, &a->d) == NOISE_OK);
    MUST(finish_cipher_states(&x->h, &a->c, &receive) == NOISE_OK && finish_stream(&x->h, 7, &a->x) == NOISE_OK);
    MUST(mprotect(a, room, PROT_READ) == 0);
    for (unsigned i = 0; i < 2; i++) MUST(pthread_create(&threads[i], NULL, ask_all, a) == 0);
    for (unsigned i = 0; i < 2; i++) MUST(pthread_join(threads[i], NULL) == 0);
    printf("c-library: two threads asked one struct of each type %d times\n", QUESTIONS);
}

int main(void) {
    plan p = plan_of("XX", -1);
    end ends[2] = {begin(&p, 0), begin(&p, 1)};
    pass_all(&p, ends);
    ask_at_once(&ends[0]);
    for (unsigned role = 0; role < 2; role++) {
        noise_handshake copy = ends[role].h;             // one pair of each kind, for the test
        MUST(noise_finish(&ends[role].h, 7, &senders[role], &receivers[role]) == NOISE_OK);
        MUST(noise_finish_datagrams(&copy, 256, &datagram_senders[role], &datagram_receivers[role]) == NOISE_OK);
        MUST(pthread_mutex_init(&queues[role].lock, NULL) == 0 && pthread_cond_init(&queues[role].changed, NULL) == 0);
    }
    pass_messages(false);
    pass_messages(true);
    return 0;
}
