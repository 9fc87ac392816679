// The library as C calls it, in groups. check FOLDER [EVERY] writes vector files, and what `noise talk` has to print
// for them, into FOLDER. Of the cases that change each byte or cut at each byte it tries each EVERY-th, all if EVERY
// isn't said: under an emulator all take minutes. It prints how many comparisons each group made.
#include "ends.h"
#include <stdlib.h>

static const char *folder;

static void check_declared_sizes(void) {
    MUST(noise_handshake_size() == sizeof(noise_handshake));
    MUST(noise_sender_size() == sizeof(noise_sender));
    MUST(noise_receiver_size() == sizeof(noise_receiver));
    MUST(noise_datagram_sender_size() == sizeof(noise_datagram_sender));
    MUST(noise_datagram_receiver_size() == sizeof(noise_datagram_receiver));
    MUST(noise_version() == NOISE_VERSION);
    MUST(noise_stream_sender_size() == sizeof(noise_stream_sender)
        && noise_stream_receiver_size() == sizeof(noise_stream_receiver));
    MUST(noise_cipher_size() == sizeof(noise_cipher));
}

static void check_vectors_there(void) {
    check_vectors(folder);
}

static void check_texts_there(void) {
    check_texts(folder);
}

static const struct {
    const char *name;
    void (*check)(void);
} groups[] = {
    {"declared sizes", check_declared_sizes},
    {"vectors", check_vectors_there},
    {"pattern texts", check_texts_there},
    {"null", check_null},
    {"refusals", check_refusals},
    {"transport", check_transport},
    {"datagrams", check_datagrams},
    {"halves", check_halves},
    {"datagram halves", check_datagram_halves},
    {"ciphers", check_ciphers},
    {"streams", check_streams},
    {"changed structs", check_changed_structs},
    {"late psks", check_late_psks},
    {"once", check_once},
    {"patterns", check_patterns},
    {"overlaps", check_overlaps},
};

int main(int count, char **words) {
    MUST(count == 2 || count == 3);
    folder = words[1];
    if (count == 3) every = (unsigned)strtoul(words[2], NULL, 10);
    MUST(every > 0);
    for (size_t i = 0; i < sizeof groups / sizeof *groups; i++) {
        unsigned long before = comparisons;
        groups[i].check();
        printf("c-library: group %s: %lu comparisons\n", groups[i].name, comparisons - before);
    }
    printf("c-library: %zu groups: all codes, bytes and places were right\n", sizeof groups / sizeof *groups);
    return 0;
}
