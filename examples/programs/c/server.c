// The responder: server PATTERN [PORT], with XX or IK. It takes one connection on 127.0.0.1, port 4041 if no other is
// given, says which client it is, and sends its text back.
#include "channel.h"
#include <arpa/inet.h>
#include <stdio.h>
#include <stdlib.h>
#include <string.h>
#include <unistd.h>

static int take_client(uint16_t port) {
    struct sockaddr_in at = {.sin_family = AF_INET, .sin_port = htons(port), .sin_addr.s_addr = htonl(INADDR_LOOPBACK)};
    int listening = socket(AF_INET, SOCK_STREAM, 0), yes = 1;
    setsockopt(listening, SOL_SOCKET, SO_REUSEADDR, &yes, sizeof yes);
    if (bind(listening, (struct sockaddr *)&at, sizeof at) || listen(listening, 1)) die("the port isn't free");
    int client = accept(listening, NULL, NULL);
    if (client < 0) die("no connection");
    close(listening);
    return client;
}

int main(int count, char **words) {
    if (count < 2 || count > 3 || (strcmp(words[1], "XX") && strcmp(words[1], "IK"))) die("usage: server XX|IK [PORT]");
    static channel c;
    noise_key key;
    key_pair own = pair_in("server.secret");
    // The client gets this file by a way that nobody else can write to.
    save_public("server.public", own.public);
    open_channel(&c, take_client(count == 3 ? (uint16_t)atoi(words[2]) : 4041), words[1], 1, &own, NULL, &key);

    // Whoever the client is, it has this static key. A server that lets in only some looks it up here, and
    // else closes the connection.
    printf("server: a client with the key ");
    for (int i = 0; i < 32; i++) printf("%02x", key.bytes[i]);
    printf(" says: ");
    char text[1000];
    for (size_t len; (len = receive_bytes(&c, text, sizeof text)) > 0;) {
        fwrite(text, 1, len, stdout);
        send_bytes(&c, text, len);
    }
    printf("\n");
    end_bytes(&c);
    close_channel(&c);
    forget_pair(&own);
    return 0;
}
