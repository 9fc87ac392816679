// What the listings of docs/C.md take from the program around them.
#include "noise.h"
#include <stdbool.h>
#include <stdio.h>
#include <string.h>

_Noreturn void fail(void);
void send_all(const uint8_t *at, size_t len);
size_t receive_some(uint8_t *at, size_t len);            // 0 at the end of the connection
bool psk_of(const uint8_t remote[32], uint8_t psk[32]);
bool x25519(const uint8_t secret[32], const uint8_t remote[32], uint8_t answer[32]);
extern const bool is_responder;
extern const uint8_t own_ephemeral_public[32], own_static_public[32], prologue[], expected_remote_static[32];
extern uint8_t own_static_secret[32], own_ephemeral_secret[32];
extern const size_t prologue_len;
