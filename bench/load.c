/* Clients of a pair of servers by hand, in C: as many as are asked for, each of which writes messages to boxes
 * one after another, as docs/PROTOCOL.md, docs/FRAMES.md and docs/DOOR.md say. It stands on no crate.
 * bench/load.py builds and runs it.
 *
 *     load register WIRE LEADER HELPER WIDTH LANE KEYS SEED
 *     load write WIRE LEADER HELPER WIDTH CLIENTS MILLISECONDS PATIENCE PAUSE FIRST
 *
 * LEADER and HELPER are ports of this machine. WIRE is `plain` for frames as they are, with lanes from FIRST on;
 * or HTTP with tickets and leases, `kept` on one connection a client and server, `anew` with one a request. The
 * addresses of boxes come on standard input, 32 digits a line. A client asks again until it is answered where
 * PATIENCE isn't 0, for so many seconds, and rests between two writes for up to twice PAUSE milliseconds.
 * SIGTERM lets each client's write come to its end, and no other begin.
 *
 * Printed are, of each write, `accepted` or `unknown`, its lane, serial and box; of one that is unknown the
 * last answer's status, kind and refusal, and the message; then what was accepted at each box, times in
 * microseconds (how many, the median, what 99 of 100 are below, the longest), and counts. */
#include <arpa/inet.h>
#include <errno.h>
#include <inttypes.h>
#include <netinet/tcp.h>
#include <pthread.h>
#include <signal.h>
#include <stddef.h>
#include <stdio.h>
#include <stdlib.h>
#include <string.h>
#include <sys/random.h>
#include <sys/socket.h>
#include <time.h>
#include <unistd.h>

typedef unsigned __int128 u128;

enum { LEVELS = 128, PART = 2064, HEADER = 20, TICKET = 16, HASH = 32 };
enum { MOST_WIDTH = 4096, MOST_FRAME = 8213, MOST_BOXES = 4096 };
enum kind { DEPOSIT = 1, REGISTER = 2, WRITE = 3, PROOF = 5, HELD = 6, CHALLENGE = 7, DONE = 8, REFUSED = 9 };
enum role { LEADER, HELPER };

static void fail(const char *what) {
    fprintf(stderr, "load: %s\n", what);
    exit(1);
}

/* ---- ChaCha20 with a counter and a stream of 64 bits */

#define TURNED(x, by) ((x) << (by) | (x) >> (32 - (by)))

static void quarter(uint32_t *a, uint32_t *b, uint32_t *c, uint32_t *d) {
    *a += *b, *d = TURNED(*d ^ *a, 16);
    *c += *d, *b = TURNED(*b ^ *c, 12);
    *a += *b, *d = TURNED(*d ^ *a, 8);
    *c += *d, *b = TURNED(*b ^ *c, 7);
}

static void chacha_block(const uint8_t key[32], uint64_t counter, uint64_t stream, uint8_t out[64]) {
    uint32_t first[16] = {0x61707865, 0x3320646e, 0x79622d32, 0x6b206574}, s[16];
    memcpy(first + 4, key, 32), memcpy(first + 12, &counter, 8), memcpy(first + 14, &stream, 8);
    memcpy(s, first, sizeof s);
    for (int round = 0; round < 10; round++) {
        for (int i = 0; i < 4; i++) quarter(&s[i], &s[4 + i], &s[8 + i], &s[12 + i]);
        for (int i = 0; i < 4; i++)
            quarter(&s[i], &s[4 + (i + 1) % 4], &s[8 + (i + 2) % 4], &s[12 + (i + 3) % 4]);
    }
    for (int i = 0; i < 16; i++) s[i] += first[i];
    memcpy(out, s, 64);
}

/* The first bytes of a key's stream. */
static void stream_bytes(const uint8_t key[32], uint64_t stream, uint8_t *out, size_t length) {
    uint8_t block[64];
    for (size_t at = 0; at < length; at += 64) {
        chacha_block(key, at / 64, stream, block);
        memcpy(out + at, block, length - at < 64 ? length - at : 64);
    }
}

/* ---- SHA-256 */

static uint32_t hash_constants[64], hash_begin[8];

/* The first 32 bits behind the point of a number's square or cube root. */
static uint32_t root_bits(uint32_t n, int cube) {
    u128 low = 0, high = (u128)1 << 40;
    while (high - low > 1) {
        u128 middle = (low + high) / 2, power = middle * middle * (cube ? middle : 1);
        *(power <= (u128)n << (cube ? 96 : 64) ? &low : &high) = middle;
    }
    return (uint32_t)low;
}

static void make_hash_constants(void) {
    int found = 0;
    for (uint32_t n = 2; found < 64; n++) {
        int is_prime = 1;
        for (uint32_t d = 2; d * d <= n; d++) is_prime &= n % d != 0;
        if (!is_prime) continue;
        if (found < 8) hash_begin[found] = root_bits(n, 0);
        hash_constants[found++] = root_bits(n, 1);
    }
}

#define RIGHT(x, by) TURNED(x, 32 - (by))

static void hash_block(uint32_t state[8], const uint8_t *block) {
    uint32_t w[64], v[8];
    for (int i = 0; i < 16; i++) memcpy(&w[i], block + 4 * i, 4), w[i] = ntohl(w[i]);
    for (int i = 16; i < 64; i++) {
        uint32_t a = w[i - 15], b = w[i - 2];
        w[i] = w[i - 16] + (RIGHT(a, 7) ^ RIGHT(a, 18) ^ a >> 3) + w[i - 7] +
               (RIGHT(b, 17) ^ RIGHT(b, 19) ^ b >> 10);
    }
    memcpy(v, state, sizeof v);
    for (int i = 0; i < 64; i++) {
        uint32_t one =
            v[7] + (RIGHT(v[4], 6) ^ RIGHT(v[4], 11) ^ RIGHT(v[4], 25)) + ((v[4] & v[5]) ^ (~v[4] & v[6]));
        uint32_t two = (RIGHT(v[0], 2) ^ RIGHT(v[0], 13) ^ RIGHT(v[0], 22)) +
                       ((v[0] & v[1]) ^ (v[0] & v[2]) ^ (v[1] & v[2]));
        one += hash_constants[i] + w[i];
        memmove(v + 1, v, 7 * sizeof *v);
        v[4] += one, v[0] = one + two;
    }
    for (int i = 0; i < 8; i++) state[i] += v[i];
}

static void sha256(const uint8_t *bytes, size_t length, uint8_t out[HASH]) {
    uint32_t state[8];
    uint8_t last[128] = {0};
    size_t rest = length % 64, end = rest < 56 ? 64 : 128;
    uint64_t bits = 8 * (uint64_t)length;
    memcpy(state, hash_begin, sizeof state);
    for (size_t at = 0; at + 64 <= length; at += 64) hash_block(state, bytes + at);
    memcpy(last, bytes + length - rest, rest), last[rest] = 0x80;
    for (int i = 0; i < 8; i++) last[end - 1 - i] = (uint8_t)(bits >> (8 * i));
    for (size_t at = 0; at < end; at += 64) hash_block(state, last + at);
    for (int i = 0; i < 8; i++) state[i] = htonl(state[i]);
    memcpy(out, state, HASH);
}

/* ---- the field of 2^128 elements, by a table of the products of bytes */

static uint8_t byte_products[256][256];

static u128 product_by(u128 a, u128 b, int level, int table) {
    if (level == table) return table ? byte_products[a][b] : a & b;
    int half = 1 << (level - 1);
    u128 low = ((u128)1 << half) - 1, twist = level == 1 ? 1 : (u128)1 << (half / 2);
    u128 high = product_by(a >> half, b >> half, level - 1, table),
         least = product_by(a & low, b & low, level - 1, table);
    u128 cross = product_by((a & low) ^ a >> half, (b & low) ^ b >> half, level - 1, table) ^ high ^ least;
    return (cross ^ product_by(twist, high, level - 1, table)) << half | (least ^ high);
}

static u128 product(u128 a, u128 b) { return product_by(a, b, 7, 3); }

static void make_byte_products(void) {
    for (int a = 0; a < 256; a++)
        for (int b = 0; b < 256; b++) byte_products[a][b] = (uint8_t)product_by(a, b, 3, 0);
}

/* ---- a write: the halves of its point function, and of its proof */

static u128 with_bit(u128 x, unsigned bit) { return x >> 1 << 1 | bit; }

static void node_block(u128 state, uint64_t counter, uint64_t stream, uint8_t out[64]) {
    uint8_t key[32] = {0};
    state = with_bit(state, 0);
    memcpy(key, &state, 16);
    chacha_block(key, counter, stream, out);
}

struct write {
    u128 words[16];                  /* that it is made of: both roots, and what the proof is shared by */
    u128 difference;                 /* of both leaves at the target */
    uint8_t part[PART + MOST_WIDTH]; /* the public part */
};

static void make_keys(struct write *write, u128 target, const uint8_t *message, size_t width) {
    u128 state[2] = {with_bit(write->words[0], 0), with_bit(write->words[1], 1)}, child[2][4], rights = 0;
    for (int level = 0; level < LEVELS; level++) {
        int side = (int)(target >> (127 - level)) & 1;
        for (int server = 0; server < 2; server++) node_block(state[server], 0, 0, (uint8_t *)child[server]);
        u128 word = with_bit(child[0][1 - side] ^ child[1][1 - side],
                             (unsigned)(child[0][0] ^ child[1][0] ^ side ^ 1) & 1);
        unsigned right = (unsigned)(child[0][1] ^ child[1][1] ^ side) & 1;
        for (int server = 0; server < 2; server++) {
            u128 correction = side ? with_bit(word, right) : word;
            state[server] = child[server][side] ^ (state[server] & 1 ? correction : 0);
        }
        memcpy(write->part + 16 * level, &word, 16);
        rights |= (u128)right << level;
    }
    memcpy(write->part + 2048, &rights, 16);
    for (size_t at = 0; at < width; at += 64) {
        uint8_t block[2][64];
        for (int server = 0; server < 2; server++) node_block(state[server], at / 64, 1, block[server]);
        for (size_t i = 0; i < 64 && at + i < width; i++)
            write->part[PART + at + i] = block[0][i] ^ block[1][i] ^ message[at + i];
    }
    write->difference = state[0] ^ state[1];
}

/* The coefficients of the polynomial of degree 2 that has these values at 0, 1 and 2. */
static void through(u128 at0, u128 at1, u128 at2, u128 out[3]) {
    out[0] = at0, out[2] = at0 ^ at2 ^ product(2, at0 ^ at1), out[1] = out[2] ^ at0 ^ at1;
}

/* The shares of the proof: u, v, h (five), a, b and c of each server. */
static void make_proof(const struct write *write, u128 target, const uint8_t ckey[32], u128 share[2][10]) {
    u128 challenge[4], f[3], g[3], d = write->difference;
    chacha_block(ckey, (uint64_t)(target >> 64), (uint64_t)target, (uint8_t *)challenge);
    memcpy(share[0], write->words + 2, 10 * sizeof(u128));
    memcpy(share[1], share[0], 10 * sizeof(u128));
    for (int place = 0; place < 4; place++)
        share[1][place < 2 ? place : place + 5] = write->words[12 + place];
    u128 by_r = product(d, challenge[0]);
    through(share[0][0] ^ share[1][0], by_r, d, f);
    through(share[0][1] ^ share[1][1], product(d, challenge[1]), product(by_r, challenge[1]), g);
    for (int i = 0; i < 3; i++)
        for (int j = 0; j < 3; j++) share[1][2 + i + j] ^= product(f[i], g[j]);
    share[1][9] ^= product(share[0][7] ^ share[1][7], share[0][8] ^ share[1][8]);
}

/* ---- clients */

enum wire { PLAIN, KEPT, ANEW };

static struct {
    enum wire wire;
    int port[2];
    size_t width;
    double patience; /* seconds for an answer, with tries anew; 0 for one try */
    double pause;    /* seconds between two writes, in the mean */
    uint32_t boxes;
    u128 address[MOST_BOXES];
    double end;
} run;

static volatile sig_atomic_t is_over;
static void end_run(int number) { is_over = number; }

struct times {
    uint32_t *each; /* microseconds */
    size_t count, room;
};

struct client {
    int door[2]; /* a kept connection, or -1 */
    uint8_t seed[32], ticket[2][TICKET];
    uint64_t drawn;
    uint16_t lane;
    uint32_t serial;
    struct times answers, writes;
    uint64_t accepted, unknown, failed, busy, again;
    uint8_t (*sums)[MOST_WIDTH];
    uint8_t message[MOST_WIDTH];
};

static double now(void) {
    struct timespec at;
    clock_gettime(CLOCK_MONOTONIC, &at);
    return (double)at.tv_sec + 1e-9 * (double)at.tv_nsec;
}

static void pause_for(double seconds) { usleep((useconds_t)(1e6 * seconds)); }

static void note(struct times *times, double seconds) {
    if (times->count == times->room) {
        times->room = times->room ? 2 * times->room : 1024;
        times->each = realloc(times->each, times->room * sizeof *times->each);
        if (!times->each) fail("no memory");
    }
    times->each[times->count++] = (uint32_t)(1e6 * seconds);
}

static void draw(struct client *client, void *out, size_t length) {
    stream_bytes(client->seed, client->drawn++, out, length);
}

/* ---- connections */

static int dial(int port) {
    struct sockaddr_in place = {.sin_family = AF_INET,
                                .sin_port = htons((uint16_t)port),
                                .sin_addr.s_addr = htonl(INADDR_LOOPBACK)};
    struct timeval patience = {.tv_sec = run.patience ? 5 : 120};
    int door = socket(AF_INET, SOCK_STREAM | SOCK_CLOEXEC, 0), on = 1;
    if (door < 0) fail("there are no more sockets");
    setsockopt(door, IPPROTO_TCP, TCP_NODELAY, &on, sizeof on);
    setsockopt(door, SOL_SOCKET, SO_RCVTIMEO, &patience, sizeof patience);
    if (!connect(door, (struct sockaddr *)&place, sizeof place)) return door;
    close(door);
    return -1;
}

static int send_all(int door, const uint8_t *bytes, size_t length) {
    while (length) {
        ssize_t sent = send(door, bytes, length, MSG_NOSIGNAL);
        if (sent <= 0) return 0;
        bytes += sent, length -= (size_t)sent;
    }
    return 1;
}

/* At least so many bytes in all, into a buffer that has some; how many it has then, or 0 where the connection
 * ended before. */
static size_t receive(int door, uint8_t *bytes, size_t room, size_t had, size_t wanted) {
    while (had < wanted) {
        ssize_t came = recv(door, bytes + had, room - had, 0);
        if (came <= 0) return 0;
        had += (size_t)came;
    }
    return had;
}

struct reply {
    int status; /* of HTTP; 0 where none came */
    size_t length;
    uint8_t body[MOST_FRAME + 1];
};

/* An answer of HTTP, whose head and body are short. */
static int receive_http(int door, struct reply *reply) {
    uint8_t bytes[MOST_FRAME + 2048];
    size_t had = 0, head;
    char *end, *length;
    do {
        had = had + 1 < sizeof bytes ? receive(door, bytes, sizeof bytes - 1, had, had + 1) : 0;
        if (!had) return 0;
        bytes[had] = 0;
    } while (!(end = strstr((char *)bytes, "\r\n\r\n")));
    head = (size_t)(end - (char *)bytes) + 4;
    length = strstr((char *)bytes, "Content-Length: ");
    reply->length = length ? strtoul(length + 16, NULL, 10) : 0;
    if (sscanf((char *)bytes, "HTTP/1.1 %d ", &reply->status) != 1 || reply->length > MOST_FRAME)
        fail("an answer is no HTTP");
    if (had < head + reply->length && !receive(door, bytes, sizeof bytes, had, head + reply->length))
        return 0;
    memcpy(reply->body, bytes + head, reply->length);
    return 1;
}

static int receive_frame(int door, struct reply *reply) {
    uint32_t length;
    size_t had = receive(door, reply->body, sizeof reply->body, 0, 4);
    if (!had) return 0;
    memcpy(&length, reply->body, 4);
    reply->length = 4 + (size_t)ntohl(length);
    if (reply->length > MOST_FRAME) fail("an answer is no frame");
    reply->status = 200;
    return had >= reply->length || receive(door, reply->body, sizeof reply->body, had, reply->length) > 0;
}

/* One try on this connection. */
static int try_on(int door, const uint8_t *bytes, size_t length, struct reply *reply) {
    reply->status = 0;
    return send_all(door, bytes, length) && (run.wire == PLAIN ? receive_frame : receive_http)(door, reply);
}

/* Sends a request, on the kept connection where it still stands, and else on a new one. Whether an answer
 * came. */
static int send_once(struct client *client, enum role role, const uint8_t *bytes, size_t length,
                     struct reply *reply) {
    int *door = &client->door[role], was_kept = *door >= 0, came;
    if (!was_kept && (*door = dial(run.port[role])) < 0) return 0;
    came = try_on(*door, bytes, length, reply);
    if (!came && was_kept) {
        close(*door);
        client->again++;
        if ((*door = dial(run.port[role])) < 0) return 0;
        came = try_on(*door, bytes, length, reply);
    }
    if (!came || run.wire != KEPT) close(*door), *door = -1;
    return came;
}

/* The same with tries anew, until the run's patience is over. */
static int ask(struct client *client, enum role role, const uint8_t *bytes, size_t length,
               struct reply *reply) {
    double begin = now();
    int came;
    while (!(came = send_once(client, role, bytes, length, reply)) && now() - begin < run.patience) {
        client->again++;
        pause_for(0.02);
    }
    note(&client->answers, now() - begin);
    return came;
}

static int post(struct client *client, enum role role, const char *path, const uint8_t *body, size_t length,
                struct reply *reply) {
    uint8_t bytes[MOST_FRAME + 512];
    int head = sprintf((char *)bytes,
                       "POST %s HTTP/1.1\r\nHost: localhost\r\nContent-Type: application/octet-stream\r\n"
                       "Content-Length: %zu\r\n%s\r\n",
                       path, length, run.wire == ANEW ? "Connection: close\r\n" : "");
    memcpy(bytes + head, body, length);
    return ask(client, role, bytes, (size_t)head + length, reply);
}

/* ---- requests */

static size_t frame_of(uint8_t *frame, enum kind kind, const struct client *client, const void *first,
                       size_t first_length, const void *second, size_t second_length) {
    size_t length = HEADER + first_length + second_length;
    uint32_t behind = htonl((uint32_t)length - 4), serial = htonl(client->serial);
    uint16_t lane = htons(client->lane);
    memset(frame, 0, HEADER);
    memcpy(frame, &behind, 4), frame[4] = 1, frame[5] = (uint8_t)kind;
    memcpy(frame + 6, &lane, 2), memcpy(frame + 8, &serial, 4);
    memcpy(frame + HEADER, first, first_length), memcpy(frame + HEADER + first_length, second, second_length);
    return length;
}

/* Sends a frame, with its ticket and the hash of a statement where the wire has them. Whether a frame of this
 * kind came. */
static int answered(struct client *client, enum role role, const uint8_t *statement, const uint8_t *frame,
                    size_t length, enum kind wanted, struct reply *reply) {
    uint8_t body[TICKET + HASH + MOST_FRAME];
    size_t front = TICKET;
    if (run.wire == PLAIN) return ask(client, role, frame, length, reply) && reply->body[5] == wanted;
    memcpy(body, client->ticket[role], TICKET);
    if (statement) memcpy(body + front, statement, HASH), front += HASH;
    memcpy(body + front, frame, length);
    return post(client, role, statement ? "/proof" : "/frame", body, front + length, reply) &&
           reply->status == 200 && reply->body[5] == wanted;
}

/* A stranger's new tickets, and the lane and serial of its lease. */
static int lease(struct client *client, struct reply *reply) {
    uint8_t body[TICKET + HASH];
    double begin = now();
    draw(client, client->ticket, sizeof client->ticket);
    memcpy(body, client->ticket[LEADER], TICKET);
    sha256(client->ticket[HELPER], TICKET, body + TICKET);
    for (;;) {
        if (!post(client, LEADER, "/lease", body, sizeof body, reply)) return 0;
        if (reply->status != 503 || now() - begin > 60) break;
        client->busy++;
        pause_for(0.1);
    }
    if (reply->status != 200 || reply->length != 6) return 0;
    memcpy(&client->lane, reply->body, 2), memcpy(&client->serial, reply->body + 2, 4);
    client->lane = ntohs(client->lane), client->serial = ntohl(client->serial);
    return 1;
}

static int prove(struct client *client, const struct write *write, u128 target, struct reply *reply) {
    uint8_t stated[32 + PART + MOST_WIDTH], statement[HASH], frame[MOST_FRAME];
    u128 share[2][10];
    size_t length;
    memcpy(stated, reply->body + HEADER, 32), memcpy(stated + 32, write->part, PART + run.width);
    sha256(stated, 32 + PART + run.width, statement);
    make_proof(write, target, stated, share);
    length = frame_of(frame, PROOF, client, share[1], sizeof share[1], NULL, 0);
    if (!answered(client, HELPER, statement, frame, length, HELD, reply)) return 0;
    length = frame_of(frame, PROOF, client, share[0], sizeof share[0], NULL, 0);
    return answered(client, LEADER, statement, frame, length, DONE, reply);
}

/* A whole write under the client's lane and serial. Whether it was accepted; `reply` has the last answer. */
static int write_to(struct client *client, u128 target, struct reply *reply) {
    struct write write;
    uint8_t frame[MOST_FRAME], root[17] = {2};
    size_t length;
    draw(client, write.words, sizeof write.words);
    make_keys(&write, target, client->message, run.width);
    memcpy(root + 1, &write.words[1], 16);
    length = frame_of(frame, DEPOSIT, client, root, sizeof root, NULL, 0);
    if (!answered(client, HELPER, NULL, frame, length, HELD, reply)) return 0;
    length = frame_of(frame, WRITE, client, &write.words[0], 16, write.part, PART + run.width);
    return answered(client, LEADER, NULL, frame, length, CHALLENGE, reply) &&
           prove(client, &write, target, reply);
}

static pthread_mutex_t printing = PTHREAD_MUTEX_INITIALIZER;

static void print_digits(const uint8_t *bytes, size_t length) {
    for (size_t at = 0; at < length; at++) printf("%02x", bytes[at]);
    putchar('\n');
}

static void tell(struct client *client, uint32_t box, int was_accepted, const struct reply *reply) {
    pthread_mutex_lock(&printing);
    if (was_accepted) {
        client->accepted++;
        printf("accepted %u %" PRIu32 " %" PRIu32 "\n", client->lane, client->serial, box);
        for (size_t at = 0; at < run.width; at++) client->sums[box][at] ^= client->message[at];
    } else {
        client->unknown++;
        int frame = reply->status == 200 && reply->length >= HEADER;
        printf("unknown %u %" PRIu32 " %" PRIu32 " %d/%d/%d ", client->lane, client->serial, box,
               reply->status, frame ? reply->body[5] : 0,
               frame && reply->length > HEADER ? reply->body[HEADER] : 0);
        print_digits(client->message, run.width);
    }
    fflush(stdout);
    pthread_mutex_unlock(&printing);
}

static void write_one(struct client *client) {
    struct reply reply = {0};
    uint32_t box;
    double begin = now();
    draw(client, client->message, run.width), draw(client, &box, sizeof box);
    box %= run.boxes;
    if (run.wire == PLAIN) client->serial++;
    else if (!lease(client, &reply)) {
        client->failed++;
        pause_for(0.05);
        return;
    }
    int was_accepted = write_to(client, run.address[box], &reply);
    if (was_accepted) note(&client->writes, now() - begin);
    tell(client, box, was_accepted, &reply);
}

static void *work(void *at) {
    while (!is_over && now() < run.end) {
        uint32_t random;
        draw(at, &random, sizeof random);
        pause_for(run.pause * 2 * random / UINT32_MAX);
        write_one(at);
    }
    return NULL;
}

static int by_size(const void *a, const void *b) {
    uint32_t x = *(const uint32_t *)a, y = *(const uint32_t *)b;
    return (x > y) - (x < y);
}

/* Prints how many times of these there are, the median, the time that 99 of 100 are below, and the longest.
 * */
static void print_times(const char *what, struct client *clients, size_t count, size_t offset) {
    struct times all = {0};
    for (size_t i = 0; i < count; i++) {
        struct times *own = (struct times *)((uint8_t *)&clients[i] + offset);
        for (size_t j = 0; j < own->count; j++) note(&all, 1e-6 * own->each[j] + 1e-7);
    }
    if (all.count) qsort(all.each, all.count, sizeof *all.each, by_size);
    uint32_t none = 0, *each = all.count ? all.each : &none;
    size_t last = all.count ? all.count - 1 : 0;
    printf("%s %zu %" PRIu32 " %" PRIu32 " %" PRIu32 "\n", what, all.count, each[last / 2],
           each[last * 99 / 100], each[last]);
}

static void print_all(struct client *clients, size_t count) {
    uint64_t failed = 0, busy = 0, again = 0;
    for (uint32_t box = 0; box < run.boxes; box++) {
        printf("sum %" PRIu32 " ", box);
        print_digits(clients->sums[box], run.width);
    }
    print_times("answers", clients, count, offsetof(struct client, answers));
    print_times("writes", clients, count, offsetof(struct client, writes));
    for (size_t i = 0; i < count; i++)
        failed += clients[i].failed, busy += clients[i].busy, again += clients[i].again;
    printf("failed %" PRIu64 "\nbusy %" PRIu64 "\nagain %" PRIu64 "\n", failed, busy, again);
}

/* Memory for the sums is taken whole, with the width of the largest. */
static struct client *new_clients(size_t count) {
    struct client *clients = calloc(count, sizeof *clients);
    uint8_t(*sums)[MOST_WIDTH] = calloc(run.boxes + 1, sizeof *sums);
    if (!clients || !sums) fail("no memory");
    for (size_t i = 0; i < count; i++) {
        clients[i].door[LEADER] = clients[i].door[HELPER] = -1;
        clients[i].sums = sums;
        if (getrandom(clients[i].seed, 32, 0) != 32) fail("no random bytes");
    }
    return clients;
}

static void write_all(char **words) {
    size_t count = strtoul(words[0], NULL, 10), first = strtoul(words[4], NULL, 10);
    struct client *clients = new_clients(count);
    pthread_t *threads = calloc(count, sizeof *threads);
    double begin = now();
    run.patience = strtod(words[2], NULL), run.pause = 1e-3 * strtod(words[3], NULL);
    run.end = begin + 1e-3 * strtod(words[1], NULL);
    signal(SIGTERM, end_run);
    for (size_t i = 0; i < count; i++) {
        clients[i].lane = (uint16_t)(first + i);
        if (pthread_create(&threads[i], NULL, work, &clients[i])) fail("there are no more threads");
    }
    for (size_t i = 0; i < count; i++) pthread_join(threads[i], NULL);
    printf("milliseconds %.0f\n", 1000 * (now() - begin));
    print_all(clients, count);
}

static void read_digits(const char *digits, uint8_t *bytes, size_t length) {
    for (size_t at = 0; at < length; at++)
        if (sscanf(digits + 2 * at, "%2hhx", bytes + at) != 1) fail("no digits");
}

/* An owner registers all boxes, each with the serial that follows its number. */
static void register_all(char **words) {
    struct client *owner = new_clients(1);
    uint8_t seed[32], frame[MOST_FRAME], tag = 1, keys[64], address[16];
    struct reply reply;
    owner->lane = (uint16_t)strtoul(words[0], NULL, 10);
    read_digits(words[1], owner->ticket[0], sizeof owner->ticket), read_digits(words[2], seed, 32);
    for (uint32_t box = 0; box < run.boxes; box++) {
        u128 number = run.address[box];
        owner->serial = box + 1;
        stream_bytes(seed, owner->serial, keys, sizeof keys);
        for (int i = 15; i >= 0; i--) address[i] = (uint8_t)number, number >>= 8;
        if (!answered(owner, HELPER, NULL, frame, frame_of(frame, DEPOSIT, owner, &tag, 1, keys + 32, 32),
                      HELD, &reply))
            fail("a deposit isn't held");
        if (!answered(owner, LEADER, NULL, frame, frame_of(frame, REGISTER, owner, address, 16, keys, 32),
                      DONE, &reply))
            fail("a register isn't done");
    }
    printf("registered %" PRIu32 "\n", run.boxes);
}

static void read_addresses(void) {
    char line[64];
    uint8_t bytes[16];
    while (run.boxes < MOST_BOXES && fgets(line, sizeof line, stdin)) {
        read_digits(line, bytes, 16);
        for (int i = 0; i < 16; i++) run.address[run.boxes] = run.address[run.boxes] << 8 | bytes[i];
        run.boxes++;
    }
    if (!run.boxes) fail("there are no boxes");
}

int main(int count, char **words) {
    static const char *const WIRES[] = {"plain", "kept", "anew"};
    uint8_t known[HASH];
    make_hash_constants(), make_byte_products();
    sha256((const uint8_t *)"abc", 3, known);
    if (memcmp(known, "\xba\x78\x16\xbf", 4) || memcmp(known + 28, "\xf2\x00\x15\xad", 4))
        fail("SHA-256 is wrong");
    if (count < 9) fail("usage: load register|write WIRE LEADER HELPER WIDTH ..");
    while (strcmp(words[2], WIRES[run.wire]))
        if (++run.wire > ANEW) fail("there is no such wire");
    run.port[LEADER] = atoi(words[3]), run.port[HELPER] = atoi(words[4]),
    run.width = strtoul(words[5], NULL, 10);
    if (run.width > MOST_WIDTH) fail("too wide");
    read_addresses();
    if (!strcmp(words[1], "register")) register_all(words + 6);
    else if (count == 11) write_all(words + 6);
    else fail("usage: load write WIRE LEADER HELPER WIDTH CLIENTS MILLISECONDS PATIENCE PAUSE FIRST");
    return 0;
}
