// The initiator: client PATTERN TEXT [PORT], with XX or IK. It connects to 127.0.0.1, port 4041 if no other is given,
// and sends the text, which the server sends back.
#include "channel.h"
#include <arpa/inet.h>
#include <stdio.h>
#include <stdlib.h>
#include <string.h>
#include <unistd.h>

static int connect_to_server(uint16_t port) {
    struct sockaddr_in at = {.sin_family = AF_INET, .sin_port = htons(port), .sin_addr.s_addr = htonl(INADDR_LOOPBACK)};
    for (int tries = 0; tries < 50; tries++) {           // the server may still be starting
        int server = socket(AF_INET, SOCK_STREAM, 0);
        if (!connect(server, (struct sockaddr *)&at, sizeof at)) return server;
        close(server);
        usleep(100000);
    }
    die("no server on this port");
}

int main(int count, char **words) {
    if (count < 3 || count > 4 || (strcmp(words[1], "XX") && strcmp(words[1], "IK")))
        die("usage: client XX|IK TEXT [PORT]");
    static channel c;
    uint8_t expected[32];
    noise_key key;
    key_pair own = pair_in("client.secret");
    int server = connect_to_server(count == 4 ? (uint16_t)atoi(words[3]) : 4041);
    load_public("server.public", expected);

    // IK has to know the server's static key before its first message; XX learns it, and compares it now.
    open_channel(&c, server, words[1], 0, &own, strcmp(words[1], "IK") ? NULL : expected, &key);
    if (!key.present || memcmp(key.bytes, expected, 32)) die("this isn't the server");

    send_bytes(&c, words[2], strlen(words[2]));
    end_bytes(&c);
    char text[1000];
    printf("client: the server says: ");
    for (size_t len; (len = receive_bytes(&c, text, sizeof text)) > 0;) fwrite(text, 1, len, stdout);
    printf("\n");                                        // all of it came: receive_bytes has reported the end
    close_channel(&c);
    forget_pair(&own);
    return 0;
}
