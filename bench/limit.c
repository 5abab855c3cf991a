/* A server that does nothing but answer: what the way of a request over TCP costs by itself.
 *
 *     cc -O2 -o limit bench/limit.c
 *     ./limit nothing | ./limit copy
 *
 * It prints the port that it listens on at 127.0.0.1, and serves one client after the other. Each request, or chain of requests, is
 * answered with STATUS_SUCCESS and a body of the length that a share's has; of a frame it looks at nothing but the commands, the
 * MessageIds, lengths and offsets. `nothing` sends a READ's bytes from where they always are, and leaves a WRITE's where they came.
 * `copy` keeps 16 MiB: it copies a READ's bytes out of them, and a WRITE's into them, once. What a server takes beside it is what it
 * does for its answers. */
#include <arpa/inet.h>
#include <netinet/in.h>
#include <netinet/tcp.h>
#include <stdint.h>
#include <stdio.h>
#include <stdlib.h>
#include <string.h>
#include <sys/socket.h>
#include <sys/uio.h>
#include <unistd.h>

enum { HEADER = 64, ROOM = 1 << 20, KEPT = 16 << 20, LONGEST_READ = 1 << 19 };
enum { NEGOTIATE = 0, SESSION_SETUP = 1, TREE_CONNECT = 3, CREATE = 5, CLOSE = 6, READ = 8, WRITE = 9, ECHO = 13, COMMANDS = 19 };

/* How many bytes the body of each command's response has, without a READ's bytes. */
static const unsigned body_size[COMMANDS] = {
    [NEGOTIATE] = 64, [SESSION_SETUP] = 8, [TREE_CONNECT] = 16, [CREATE] = 88, [CLOSE] = 60, [READ] = 16, [WRITE] = 16, [ECHO] = 4};
/* The StructureSize of each. */
static const uint16_t structure[COMMANDS] = {
    [NEGOTIATE] = 65, [SESSION_SETUP] = 9, [TREE_CONNECT] = 16, [CREATE] = 89, [CLOSE] = 60, [READ] = 17, [WRITE] = 17, [ECHO] = 4};

static unsigned char kept[KEPT], came[ROOM], answer[ROOM];
static int copies;

static uint32_t word(const unsigned char *at) {
    uint32_t it;
    memcpy(&it, at, 4);
    return it;
}

static void put(unsigned char *at, uint32_t it) { memcpy(at, &it, 4); }

/* Puts the response to a request, and gives its length; `bytes` are those of a READ that are sent behind it, not copied. */
static size_t respond(const unsigned char *request, unsigned char *response, struct iovec *bytes) {
    uint16_t command;
    memcpy(&command, request + 12, 2);
    if (command >= COMMANDS || body_size[command] == 0) {
        fprintf(stderr, "limit: a request of command %u\n", command);
        exit(1);
    }
    size_t length = HEADER + body_size[command];
    memcpy(response, request, HEADER);
    put(response + 8, 0);
    put(response + 14, 64);
    put(response + 16, word(request + 16) | 1);
    memset(response + HEADER, 0, body_size[command]);
    memcpy(response + HEADER, &structure[command], 2);
    if (command == NEGOTIATE)
        put(response + HEADER + 4, 0x0210);
    if (command == SESSION_SETUP)
        put(response + 40, 1);
    if (command == TREE_CONNECT)
        put(response + 36, 1);
    if (command == CREATE)
        put(response + HEADER + 64, 1), put(response + HEADER + 72, 1);
    if (command == READ) {
        uint32_t count = word(request + HEADER + 4), from = word(request + HEADER + 8) % (KEPT - LONGEST_READ);
        response[HEADER + 2] = 80;
        put(response + HEADER + 4, count);
        if (copies) {
            memcpy(response + length, kept + from, count);
            return length + count;
        }
        *bytes = (struct iovec){kept, count};
    }
    if (command == WRITE) {
        uint32_t count = word(request + HEADER + 4), to = word(request + HEADER + 8) % (KEPT - LONGEST_READ);
        put(response + HEADER + 4, count);
        if (copies)
            memcpy(kept + to, request + 112, count);
    }
    return length;
}

/* Sends all of some parts. */
static int send_all(int client, struct iovec *parts, int count) {
    while (count > 0) {
        ssize_t sent = writev(client, parts, count);
        if (sent < 0)
            return 0;
        for (; count > 0 && (size_t)sent >= parts->iov_len; parts++, count--)
            sent -= parts->iov_len;
        if (count > 0) {
            parts->iov_base = (char *)parts->iov_base + sent;
            parts->iov_len -= sent;
        }
    }
    return 1;
}

/* Answers a whole frame. */
static int answer_frame(int client, const unsigned char *payload) {
    size_t length = 4;
    struct iovec bytes = {NULL, 0};
    for (;;) {
        uint32_t next = word(payload + 20);
        size_t one = respond(payload, answer + length, &bytes);
        put(answer + length + 20, 0);
        if (next != 0) {
            size_t padded = (one + 7) / 8 * 8;
            memset(answer + length + one, 0, padded - one);
            put(answer + length + 20, (uint32_t)padded);
            one = padded;
        }
        length += one;
        if (next == 0)
            break;
        payload += next;
    }
    put(answer, htonl((uint32_t)(length - 4 + bytes.iov_len)));
    struct iovec parts[2] = {{answer, length}, bytes};
    return send_all(client, parts, bytes.iov_len > 0 ? 2 : 1);
}

/* Serves a client until it ends. */
static void serve(int client) {
    size_t have = 0, begin = 0;
    for (;;) {
        if (begin > 0) {
            memmove(came, came + begin, have - begin);
            have -= begin;
            begin = 0;
        }
        ssize_t more = recv(client, came + have, ROOM - have, 0);
        if (more <= 0)
            return;
        have += more;
        while (have - begin >= 4) {
            size_t length = ntohl(word(came + begin));
            if (have - begin < 4 + length)
                break;
            if (!answer_frame(client, came + begin + 4))
                return;
            begin += 4 + length;
        }
    }
}

int main(int count, char **words) {
    copies = count == 2 && strcmp(words[1], "copy") == 0;
    if (count != 2 || (!copies && strcmp(words[1], "nothing") != 0))
        return fprintf(stderr, "limit nothing|copy\n"), 2;
    memset(kept, 1, KEPT);
    int listener = socket(AF_INET, SOCK_STREAM, 0), on = 1;
    struct sockaddr_in at = {.sin_family = AF_INET, .sin_addr.s_addr = htonl(INADDR_LOOPBACK)};
    socklen_t size = sizeof at;
    if (bind(listener, (struct sockaddr *)&at, sizeof at) != 0 || listen(listener, 8) != 0
        || getsockname(listener, (struct sockaddr *)&at, &size) != 0)
        return perror("limit"), 1;
    printf("listening on 127.0.0.1:%u\n", ntohs(at.sin_port));
    fflush(stdout);
    for (;;) {
        int client = accept(listener, NULL, NULL);
        setsockopt(client, IPPROTO_TCP, TCP_NODELAY, &on, sizeof on);
        serve(client);
        close(client);
    }
}
