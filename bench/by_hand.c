/* One server's part of a write but for its sums, by hand: the leaves of a point function's key at the addresses of boxes,
 * and the leaves' write bytes, added to shares of 1,024 bytes, as crates/dpf_rules/specs/Expansion.antt and Walk.antt say.
 * It stands on no crate: it shows what the same work takes in C with the vectors of SSE2, of SSSE3 (-mssse3) or of AVX2
 * (-mavx2). Words and lines are those of express_bench, so that the same checksums must come; bench/by_hand builds it. */
#include <immintrin.h>
#include <inttypes.h>
#include <stdio.h>
#include <stdlib.h>
#include <string.h>

typedef unsigned __int128 u128;

enum { LEVELS = 128, WIDTH = 1024, PART_BYTES = 2064 + WIDTH, ANY_BYTE = 0x5a, MOST_BOXES = 4096 };

/* ---- vectors: a word of LANES blocks */

#ifdef __AVX2__
enum { LANES = 8 };
typedef __m256i lanes;
#define OF(name) _mm256_##name
#define BITS(name) _mm256_##name##_si256
#else
enum { LANES = 4 };
typedef __m128i lanes;
#define OF(name) _mm_##name
#define BITS(name) _mm_##name##_si128
#endif

#define INLINE static inline __attribute__((always_inline))
#define TURNED(x, by) BITS(or)(OF(slli_epi32)(x, by), OF(srli_epi32)(x, 32 - (by)))

INLINE lanes all(uint32_t word) { return OF(set1_epi32)((int)word); }
INLINE lanes add(lanes a, lanes b) { return OF(add_epi32)(a, b); }
INLINE lanes xor_(lanes a, lanes b) { return BITS(xor)(a, b); }
INLINE lanes and_(lanes a, lanes b) { return BITS(and)(a, b); }

/* All bits of a lane as its bit `place` counted from the lowest. */
INLINE lanes spread(lanes x, int place) {
    return OF(srai_epi32)(OF(sll_epi32)(x, _mm_cvtsi32_si128(31 - place)), 31);
}

/* Where the mask is set b, and else a. */
INLINE lanes chosen(lanes mask, lanes a, lanes b) { return xor_(a, and_(mask, xor_(a, b))); }

#ifdef __AVX2__
INLINE lanes turned16(lanes x) {
    return _mm256_shuffle_epi8(x, _mm256_set_epi8(13, 12, 15, 14, 9, 8, 11, 10, 5, 4, 7, 6, 1, 0, 3, 2, 13, 12, 15, 14, 9,
                                                  8, 11, 10, 5, 4, 7, 6, 1, 0, 3, 2));
}
INLINE lanes turned8(lanes x) {
    return _mm256_shuffle_epi8(x, _mm256_set_epi8(14, 13, 12, 15, 10, 9, 8, 11, 6, 5, 4, 7, 2, 1, 0, 3, 14, 13, 12, 15, 10,
                                                  9, 8, 11, 6, 5, 4, 7, 2, 1, 0, 3));
}
INLINE lanes counted(void) { return _mm256_set_epi32(7, 6, 5, 4, 3, 2, 1, 0); }
/* Numbers j and j + 4, side by side. */
INLINE lanes loaded(const u128 *numbers, int j) {
    const __m128i *place = (const __m128i *)&numbers[j];
    return _mm256_set_m128i(_mm_loadu_si128(place + 4), _mm_loadu_si128(place));
}
INLINE void stored(u128 *numbers, int j, lanes row) {
    _mm_storeu_si128((__m128i *)&numbers[j], _mm256_castsi256_si128(row));
    _mm_storeu_si128((__m128i *)&numbers[j + 4], _mm256_extracti128_si256(row, 1));
}
#else
#ifdef __SSSE3__
INLINE lanes turned16(lanes x) {
    return _mm_shuffle_epi8(x, _mm_set_epi8(13, 12, 15, 14, 9, 8, 11, 10, 5, 4, 7, 6, 1, 0, 3, 2));
}
INLINE lanes turned8(lanes x) {
    return _mm_shuffle_epi8(x, _mm_set_epi8(14, 13, 12, 15, 10, 9, 8, 11, 6, 5, 4, 7, 2, 1, 0, 3));
}
#else
INLINE lanes turned16(lanes x) { return _mm_shufflehi_epi16(_mm_shufflelo_epi16(x, 0xb1), 0xb1); }
INLINE lanes turned8(lanes x) { return TURNED(x, 8); }
#endif
INLINE lanes counted(void) { return _mm_set_epi32(3, 2, 1, 0); }
INLINE lanes loaded(const u128 *numbers, int j) { return _mm_loadu_si128((const __m128i *)&numbers[j]); }
INLINE void stored(u128 *numbers, int j, lanes row) { _mm_storeu_si128((__m128i *)&numbers[j], row); }
#endif

/* Four rows of four words become columns, in each half of a vector. */
INLINE void transpose(lanes row[4]) {
    lanes a = OF(unpacklo_epi32)(row[0], row[1]), b = OF(unpackhi_epi32)(row[0], row[1]);
    lanes c = OF(unpacklo_epi32)(row[2], row[3]), d = OF(unpackhi_epi32)(row[2], row[3]);
    row[0] = OF(unpacklo_epi64)(a, c), row[1] = OF(unpackhi_epi64)(a, c);
    row[2] = OF(unpacklo_epi64)(b, d), row[3] = OF(unpackhi_epi64)(b, d);
}

/* LANES numbers to their four words, and back. */
INLINE void words_of(const u128 *numbers, lanes word[4]) {
    for (int j = 0; j < 4; j++) word[j] = loaded(numbers, j);
    transpose(word);
}
INLINE void numbers_of(const lanes word[4], u128 *numbers) {
    lanes row[4] = {word[0], word[1], word[2], word[3]};
    transpose(row);
    for (int j = 0; j < 4; j++) stored(numbers, j, row[j]);
}

/* ---- ChaCha20 */

static const uint32_t SIGMA[4] = {0x61707865, 0x3320646e, 0x79622d32, 0x6b206574};

INLINE void quarter(lanes *a, lanes *b, lanes *c, lanes *d) {
    *a = add(*a, *b), *d = turned16(xor_(*d, *a));
    *c = add(*c, *d), *b = xor_(*b, *c), *b = TURNED(*b, 12);
    *a = add(*a, *b), *d = turned8(xor_(*d, *a));
    *c = add(*c, *d), *b = xor_(*b, *c), *b = TURNED(*b, 7);
}

INLINE void rounds(lanes s[16]) {
    for (int round = 0; round < 10; round++) {
        for (int i = 0; i < 4; i++) quarter(&s[i], &s[4 + i], &s[8 + i], &s[12 + i]);
        for (int i = 0; i < 4; i++) quarter(&s[i], &s[4 + (i + 1) % 4], &s[8 + (i + 2) % 4], &s[12 + (i + 3) % 4]);
    }
}

/* The raw children of LANES states without their control bits. */
INLINE void children(const lanes key[4], lanes left[4], lanes right[4]) {
    lanes s[16];
    for (int k = 0; k < 4; k++) s[k] = all(SIGMA[k]), s[4 + k] = key[k];
    for (int k = 8; k < 16; k++) s[k] = all(0);
    rounds(s);
    for (int k = 0; k < 4; k++) left[k] = add(s[k], all(SIGMA[k])), right[k] = add(s[4 + k], key[k]);
}

/* LANES consecutive blocks of a state's block, which is stream 1. */
INLINE void blocks(u128 state, uint32_t from, lanes s[16]) {
    lanes first[16];
    for (int k = 0; k < 4; k++) first[k] = all(SIGMA[k]), first[4 + k] = all((uint32_t)(state >> (32 * k)));
    first[4] = and_(first[4], all(~1u));
    for (int k = 8; k < 16; k++) first[k] = all(0);
    first[12] = add(counted(), all(from)), first[14] = all(1);
    for (int k = 0; k < 16; k++) s[k] = first[k];
    rounds(s);
    for (int k = 0; k < 16; k++) s[k] = add(s[k], first[k]);
}

/* ---- a public part */

struct part {
    u128 word[LEVELS];
    u128 right; /* bits */
    uint8_t last[WIDTH];
};

static void read_part(struct part *part, const uint8_t *bytes) {
    memcpy(part->word, bytes, sizeof part->word);
    memcpy(&part->right, bytes + 2048, 16);
    memcpy(part->last, bytes + 2064, WIDTH);
}

static u128 with_bit(u128 x, unsigned bit) { return x >> 1 << 1 | bit; }
static u128 right_word(const struct part *part, int level) {
    return with_bit(part->word[level], (unsigned)(part->right >> level) & 1);
}

/* ---- one pass: the leaves at addresses in rising order */

/* Nodes of a level: their states, and the first of the addresses below each; one more place says where the last ends. */
struct nodes {
    size_t count;
    u128 state[MOST_BOXES + 8];
    uint32_t from[MOST_BOXES + 9];
};

static int side_at(u128 address, int level) { return (int)(address >> (127 - level)) & 1; }

/* The first address from one on, of those before the end, that goes right. */
static uint32_t parted(const u128 *address, uint32_t from, uint32_t end, int level) {
    while (from < end) {
        uint32_t middle = from + (end - from) / 2;
        if (side_at(address[middle], level)) end = middle;
        else from = middle + 1;
    }
    return from;
}

static void put(struct nodes *nodes, u128 state, uint32_t from) {
    nodes->state[nodes->count] = state;
    nodes->from[nodes->count++] = from;
}

/* The nodes of the next level. */
static void descend(const struct part *part, const u128 *address, int level, const struct nodes *from, struct nodes *to) {
    u128 word[2] = {part->word[level], right_word(part, level)};
    to->count = 0;
    for (size_t at = 0; at < from->count; at += LANES) {
        u128 child[2][LANES];
        lanes key[4], left[4], right[4];
        words_of(&from->state[at], key);
        key[0] = and_(key[0], all(~1u));
        children(key, left, right);
        numbers_of(left, child[0]), numbers_of(right, child[1]);
        for (size_t j = 0; j < LANES && at + j < from->count; j++) {
            uint32_t first = from->from[at + j], end = from->from[at + j + 1], middle = parted(address, first, end, level);
            u128 is_odd = -(from->state[at + j] & 1);
            if (first < middle) put(to, child[0][j] ^ (word[0] & is_odd), first);
            if (middle < end) put(to, child[1][j] ^ (word[1] & is_odd), middle);
        }
    }
    to->from[to->count] = from->from[from->count];
}

/* Once each node has one address below it: the states of LANES nodes at their leaves, which never leave their lanes. */
static void walk(const struct part *part, const u128 *address, int level, u128 *state) {
    lanes bits[4], key[4], left[4], right[4];
    words_of(address, bits), words_of(state, key);
    for (; level < LEVELS; level++) {
        u128 words[2] = {part->word[level], right_word(part, level)};
        lanes is_odd = spread(key[0], 0), side = spread(bits[(127 - level) / 32], (127 - level) % 32);
        key[0] = and_(key[0], all(~1u));
        children(key, left, right);
        for (int k = 0; k < 4; k++) {
            uint32_t to_left = (uint32_t)(words[0] >> (32 * k)), to_right = (uint32_t)(words[1] >> (32 * k));
            lanes word = k == 0 ? chosen(side, all(to_left), all(to_right)) : all(to_left);
            key[k] = xor_(chosen(side, left[k], right[k]), and_(is_odd, word));
        }
    }
    numbers_of(key, state);
}

struct boxes {
    uint32_t count;
    uint64_t nodes;                 /* that the last pass expanded */
    u128 address[MOST_BOXES + 8];   /* in rising order, and room for a vector's last lanes */
    uint32_t box[MOST_BOXES];       /* of each of these addresses */
    u128 leaf[MOST_BOXES];          /* by box */
    struct nodes level[2];
    uint8_t share[MOST_BOXES][WIDTH] __attribute__((aligned(64)));
};

/* The leaves of server 0 under a root. */
static void pass(struct boxes *boxes, const struct part *part, u128 root) {
    struct nodes *nodes = &boxes->level[0], *next = &boxes->level[1], *other;
    int level = 0;
    nodes->count = 0, boxes->nodes = 0;
    put(nodes, with_bit(root, 0), 0);
    nodes->from[1] = boxes->count;
    for (; level < LEVELS && nodes->count < boxes->count; level++) {
        boxes->nodes += nodes->count;
        descend(part, boxes->address, level, nodes, next);
        other = nodes, nodes = next, next = other;
    }
    boxes->nodes += (uint64_t)(LEVELS - level) * boxes->count;
    for (uint32_t at = 0; at < boxes->count; at += LANES) walk(part, &boxes->address[at], level, &nodes->state[at]);
    for (uint32_t at = 0; at < boxes->count; at++) boxes->leaf[boxes->box[at]] = nodes->state[at];
}

/* ---- write bytes */

/* Row j of four words of blocks, whose place is the first of 16 bytes; with AVX2 it has two blocks' rows. */
#ifdef __AVX2__
#define ROWS(s, each)                                                                                                    \
    for (int q = 0; q < 16; q += 8) {                                                                                    \
        transpose(&(s)[q]), transpose(&(s)[q + 4]);                                                                      \
        for (int j = 0; j < 4; j++) {                                                                                    \
            each(64 * j + 4 * q, _mm256_permute2x128_si256((s)[q + j], (s)[q + 4 + j], 0x20));                           \
            each(64 * (j + 4) + 4 * q, _mm256_permute2x128_si256((s)[q + j], (s)[q + 4 + j], 0x31));                     \
        }                                                                                                                \
    }
#else
#define ROWS(s, each)                                                                                                    \
    for (int q = 0; q < 16; q += 4) {                                                                                    \
        transpose(&(s)[q]);                                                                                              \
        for (int j = 0; j < 4; j++) each(64 * j + 4 * q, (s)[q + j]);                                                    \
    }
#endif

INLINE lanes *at_(void *bytes, size_t at) { return (lanes *)((uint8_t *)bytes + at); }

/* Adds the write bytes of a leaf to a share. */
static void add_directly(const struct part *part, u128 leaf, uint8_t *share) {
    lanes is_odd = all(-(uint32_t)(leaf & 1)), s[16];
    for (uint32_t block = 0; block < WIDTH / 64; block += LANES) {
        blocks(leaf, block, s);
#define ADD_ROW(place, row)                                                                                              \
    do {                                                                                                                 \
        size_t at = 64 * block + (place);                                                                                \
        lanes last = and_(is_odd, BITS(loadu)(at_((void *)part->last, at)));                                             \
        BITS(storeu)(at_(share, at), xor_(BITS(loadu)(at_(share, at)), xor_(row, last)));                                \
    } while (0)
        ROWS(s, ADD_ROW)
    }
}

/* Writes the first bytes of a leaf's block. */
static void block_into(u128 leaf, uint8_t *out) {
    lanes s[16];
    for (uint32_t block = 0; block < WIDTH / 64; block += LANES) {
        blocks(leaf, block, s);
#define PUT_ROW(place, row) BITS(storeu)(at_(out, 64 * block + (place)), row)
        ROWS(s, PUT_ROW)
    }
}

static void add_bytes(uint8_t *to, const uint8_t *bytes) {
    for (size_t at = 0; at < WIDTH; at += sizeof(lanes))
        BITS(storeu)(at_(to, at), xor_(BITS(loadu)(at_(to, at)), BITS(loadu)(at_((void *)bytes, at))));
}

/* The same by way of a buffer. */
static void add_buffered(const struct part *part, u128 leaf, uint8_t *share) {
    uint8_t buffer[WIDTH];
    block_into(leaf, buffer);
    if (leaf & 1) add_bytes(buffer, part->last);
    add_bytes(share, buffer);
}

/* ---- the works of express_bench */

static u128 left_child(u128 state) {
    u128 states[LANES] = {with_bit(state, 0)}, child[LANES];
    lanes key[4], left[4], right[4];
    words_of(states, key);
    children(key, left, right);
    numbers_of(left, child);
    return child[0];
}

static const u128 *sorted_by;
static int compare(const void *a, const void *b) {
    u128 x = sorted_by[*(const uint32_t *)a], y = sorted_by[*(const uint32_t *)b];
    return (x > y) - (x < y);
}

static struct boxes *register_boxes(uint32_t count) {
    static u128 address[MOST_BOXES];
    static struct boxes all, *boxes = &all;
    memset(boxes->share, 0, (size_t)count * WIDTH);
    boxes->count = count;
    for (uint32_t k = 0; k < count; k++) boxes->box[k] = k, address[k] = left_child(2 * (u128)k);
    sorted_by = address;
    qsort(boxes->box, count, sizeof *boxes->box, compare);
    for (uint32_t k = 0; k < count; k++) boxes->address[k] = address[boxes->box[k]];
    return boxes;
}

static u128 by_passes(struct boxes *boxes, const struct part *part, uint32_t times) {
    u128 total = 0;
    for (uint32_t root = 0; root < times; root++) {
        pass(boxes, part, 2 * (u128)root);
        for (uint32_t k = 0; k < boxes->count; k++) total ^= boxes->leaf[k];
    }
    return total;
}

typedef void adding(const struct part *, u128, uint8_t *);

static u128 sum_of_shares(const struct boxes *boxes) {
    u128 total = 0, word;
    for (uint32_t k = 0; k < boxes->count; k++)
        for (size_t at = 0; at < WIDTH; at += 16) memcpy(&word, &boxes->share[k][at], 16), total = (total ^ word) * 0x10001;
    return total;
}

static u128 by_outputs(struct boxes *boxes, const struct part *part, uint32_t times, adding *add_one) {
    for (uint32_t k = 0; k < boxes->count; k++) boxes->leaf[k] = left_child(((u128)1 << 64) + 2 * (u128)k);
    for (uint32_t time = 0; time < times; time++)
        for (uint32_t k = 0; k < boxes->count; k++) add_one(part, boxes->leaf[k], boxes->share[k]);
    return sum_of_shares(boxes);
}

static u128 number(uint64_t high, uint64_t low) { return (u128)high << 64 | low; }

/* Eight nodes, each expanded to the sum of its children. */
static u128 by_nodes(uint32_t times) {
    u128 total = 0;
    u128 states[8] = {number(0x0011223344556677, 0x8899aabbccddeeff), number(0x0123456789abcdef, 0xfedcba9876543210),
                      1, 2, 3, number(1, 0), number((uint64_t)1 << 63, 0), ~(u128)0};
    for (uint32_t time = 0; time < times; time++)
        for (int at = 0; at < 8; at += LANES) {
            lanes key[4], left[4], right[4];
            words_of(&states[at], key);
            key[0] = and_(key[0], all(~1u));
            children(key, left, right);
            for (int k = 0; k < 4; k++) left[k] = xor_(left[k], right[k]);
            numbers_of(left, &states[at]);
        }
    for (int k = 0; k < 8; k++) total ^= states[k];
    return total;
}

/* Sixteen blocks of a state, which end with the next state. */
static u128 by_blocks(uint32_t times) {
    u128 state = number(0x0011223344556677, 0x8899aabbccddeeff);
    uint8_t block[WIDTH];
    for (uint32_t time = 0; time < times; time++) block_into(state, block), memcpy(&state, block + WIDTH - 16, 16);
    return state;
}

/* A leaf, the beginning of a last correction, and of write bytes, as crates/tree_tests/src/point_keys.rt has them. */
static const char *const VECTORS[][3] = {
    {"4a786dae4bf1138585f9bb3f3e9ea9af",
     "5372128419b5e117b4eee29cb0318b7a816a093ed533a6a8036ad6dc281e8f4b",
     "b8a7d5cc92d6f5dd5ab5a101203f4e0faa53b5f1370a237a325ffce2e5ea0a2e"},
    {"47bede474beae4106ee5048c873622c7",
     "83af8f4586d5fede580d00f898865360fe59730f51a049161b8503df28940c65",
     "d903113634cb06769de48526e8565922f78543f25f3eafb0decea7942f9d5601"},
    {"125f820c3744a08b2b6ffcd9e2f34ece",
     "83af8f4586d5fede580d00f898865360fe59730f51a049161b8503df28940c65",
     "4af4aa790c285736a5366554d53ef2aeec23b755b32c85d1b4e73f206e691433"},
};

static void read_digits(const char *digits, uint8_t *bytes) {
    for (; *digits; digits += 2) sscanf(digits, "%2hhx", bytes++);
}

/* How many of the vectors either way of adding gives. */
static u128 right_vectors(void) {
    u128 right = 0;
    for (size_t k = 0; k < sizeof VECTORS / sizeof *VECTORS; k++) {
        static struct part part;
        uint8_t state[16], wanted[32], direct[WIDTH] = {0}, buffered[WIDTH] = {0};
        u128 leaf = 0;
        read_digits(VECTORS[k][0], state), read_digits(VECTORS[k][1], part.last), read_digits(VECTORS[k][2], wanted);
        for (int j = 0; j < 16; j++) leaf = leaf << 8 | state[j];
        add_directly(&part, leaf, direct), add_buffered(&part, leaf, buffered);
        right += !memcmp(direct, wanted, 32) && !memcmp(direct, buffered, WIDTH);
    }
    return right;
}

/* A work of this name at so many boxes. Whether there is one. */
static int work(const char *name, uint32_t count, uint32_t times, u128 *checksum) {
    static struct part part;
    uint8_t bytes[PART_BYTES];
    struct boxes *boxes = register_boxes(count);
    memset(bytes, ANY_BYTE, sizeof bytes);
    read_part(&part, bytes);
    if (!strcmp(name, "pass_")) *checksum = by_passes(boxes, &part, times);
    else if (!strcmp(name, "nodes_")) pass(boxes, &part, 0), *checksum = boxes->nodes;
    else if (!strcmp(name, "outputs_")) *checksum = by_outputs(boxes, &part, times, add_directly);
    else if (!strcmp(name, "buffered_")) *checksum = by_outputs(boxes, &part, times, add_buffered);
    else if (!strcmp(name, "children8")) *checksum = by_nodes(times);
    else if (!strcmp(name, "blocks")) *checksum = by_blocks(times);
    else if (!strcmp(name, "vectors")) *checksum = right_vectors();
    else return 0;
    return 1;
}

int main(int count, char **words) {
    for (int at = 1; at < count; at += 2) {
        char name[32];
        uint32_t boxes = 1, times = at + 1 < count ? (uint32_t)strtoul(words[at + 1], NULL, 10) : 0;
        u128 checksum;
        size_t length = strcspn(words[at], "_");
        if (words[at][length] == '_') boxes = (uint32_t)strtoul(&words[at][++length], NULL, 10);
        snprintf(name, sizeof name, "%.*s", (int)length, words[at]);
        if (at + 1 >= count || boxes < 1 || boxes > MOST_BOXES || !work(name, boxes, times, &checksum)) {
            puts("usage: by_hand (WORK TIMES)..");
            return 2;
        }
        printf("%s %" PRIu32 " %016" PRIx64, words[at], times, (uint64_t)(checksum >> 64));
        printf("%016" PRIx64 "\n", (uint64_t)checksum);
    }
    return 0;
}
