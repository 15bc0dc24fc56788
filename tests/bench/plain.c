/* A plain judge as document 01 describes it, for the benchmark only: it keeps a queue of situations and reads through all rows
 * for each. It has what the docks do not: more than a megabyte of static memory. What was seen stands in an array with a byte for
 * each situation, cleared on each call; the lean one does without and asks the mark bits. */
#include "plain.h"

#include <string.h>

#define MARKS 65536
#define SITUATIONS 262144
#define ROWS 1024
#define REFUSED(number) ((uint64_t)(number) * 1000000)

struct row {
    int from, symbol, test, motion, change, to;
};

struct table {
    const uint8_t *alphabet;
    int letters, decr_on_zero, states, row_count;
    uint8_t accepting[128];
    struct row rows[ROWS];
};

static struct table table;
static uint32_t queue[SITUATIONS];
static uint8_t seen[SITUATIONS];

static int two(const uint8_t *bytes) { return bytes[0] << 8 | bytes[1]; }

static int is_letter(uint8_t b) { return (b >= '0' && b <= '9') || (b >= 'A' && b <= 'Z') || (b >= 'a' && b <= 'z'); }

/* The value of the field with this tag at *at, which is moved past it; its length goes to *length. NULL if it is not there. */
static const uint8_t *field(const uint8_t *image, size_t image_len, size_t *at, int tag, int *length) {
    if (image_len - *at < 3 || image[*at] != tag) return NULL;
    *length = two(image + *at + 1);
    const uint8_t *value = image + *at + 3;
    if (image_len - *at - 3 < (size_t)*length) return NULL;
    *at += 3 + (size_t)*length;
    return value;
}

/* Decodes a well-formed image into the table; 0 for any other bytes. */
static int decode(const uint8_t *image, size_t image_len) {
    size_t at = 0;
    int n;
    const uint8_t *value = field(image, image_len, &at, 1, &n);
    if (!value || n != 1 || value[0] != 1) return 0;

    value = field(image, image_len, &at, 2, &n);
    if (!value || n < 1 || n > 16) return 0;
    for (int i = 0; i < n; i++) {
        if (!is_letter(value[i])) return 0;
        for (int j = 0; j < i; j++)
            if (value[i] == value[j]) return 0;
    }
    table.alphabet = value;
    table.letters = n;

    value = field(image, image_len, &at, 3, &n);
    if (!value || n != 1 || value[0] > 1) return 0;
    table.decr_on_zero = value[0];

    value = field(image, image_len, &at, 4, &n);
    if (!value || n != 2) return 0;
    table.states = two(value);
    if (table.states < 1 || table.states > 128) return 0;

    value = field(image, image_len, &at, 5, &n);
    if (!value || n != 16) return 0;
    for (int s = 0; s < 128; s++) {
        table.accepting[s] = value[s / 8] >> (s % 8) & 1;
        if (table.accepting[s] && s >= table.states) return 0;
    }

    value = field(image, image_len, &at, 6, &n);
    if (!value || n % 8 != 0 || n / 8 > ROWS || at != image_len) return 0;
    table.row_count = n / 8;
    for (int i = 0; i < table.row_count; i++, value += 8) {
        struct row r = {two(value), value[2], value[3], value[4], value[5], two(value + 6)};
        if (r.from >= table.states || r.to >= table.states || table.accepting[r.from]) return 0;
        if ((r.symbol >= table.letters && r.symbol < 16) || r.symbol > 18) return 0;
        if (r.test > 2 || r.motion > 128 || r.change > 62) return 0;
        table.rows[i] = r;
    }
    return 1;
}

uint64_t plain_check(const uint8_t *image, size_t image_len) { return decode(image, image_len) ? 1 : REFUSED(21); }

static inline uint64_t judge(int lean, const uint8_t *image, size_t image_len, const uint8_t *word, size_t word_len,
                             uint64_t limit, uint8_t *marks, size_t marks_len) {
    int symbols[64];
    if (!decode(image, image_len)) return REFUSED(21);
    if (word_len > 62) return REFUSED(22);
    for (size_t i = 0; i < word_len; i++) {
        const uint8_t *found = memchr(table.alphabet, word[i], (size_t)table.letters);
        if (!found) return REFUSED(23) + i;
        symbols[i + 1] = (int)(found - table.alphabet);
    }
    if (limit > 31) return REFUSED(24);
    if (marks_len != MARKS) return REFUSED(25);
    int last = (int)word_len + 1;
    symbols[0] = 16;
    symbols[last] = 17;

    memset(marks, 0, MARKS);
    if (!lean) memset(seen, 0, sizeof seen);
    size_t head = 0, tail = 0;
    int accepts = 0, passes = 0;
    queue[tail++] = 0;
    marks[0] = 1;
    if (!lean) seen[0] = 1;
    while (head < tail) {
        uint32_t index = queue[head++];
        int state = (int)(index >> 11), cell = (int)(index >> 5 & 63), counter = (int)(index & 31);
        if (table.accepting[state]) accepts = 1;
        for (int i = 0; i < table.row_count; i++) {
            const struct row *r = &table.rows[i];
            if (r->from != state) continue;
            if (r->symbol != 18 && r->symbol != symbols[cell]) continue;
            if ((r->test == 0 && counter != 0) || (r->test == 1 && counter == 0)) continue;
            int to_counter = counter + r->change - 31;
            if (to_counter < 0) {
                if (!table.decr_on_zero) continue;
                to_counter = 0;
            }
            if (to_counter > (int)limit) {
                passes = 1;
                continue;
            }
            int to_cell = r->motion == 0 ? 0 : r->motion == 128 ? last : cell + r->motion - 64;
            if (to_cell < 0) to_cell = 0;
            if (to_cell > last) to_cell = last;
            uint32_t to = ((uint32_t)r->to * 64 + (uint32_t)to_cell) * 32 + (uint32_t)to_counter;
            if (lean ? marks[to / 8] >> (to % 8) & 1 : seen[to]) continue;
            if (!lean) seen[to] = 1;
            marks[to / 8] |= (uint8_t)(1u << (to % 8));
            queue[tail++] = to;
        }
    }
    return (uint64_t)(accepts ? 1 : passes ? 3 : 2) * 1000000 + tail;
}

uint64_t plain_judge(const uint8_t *image, size_t image_len, const uint8_t *word, size_t word_len, uint64_t limit,
                     uint8_t *marks, size_t marks_len) {
    return judge(0, image, image_len, word, word_len, limit, marks, marks_len);
}

uint64_t lean_judge(const uint8_t *image, size_t image_len, const uint8_t *word, size_t word_len, uint64_t limit,
                    uint8_t *marks, size_t marks_len) {
    return judge(1, image, image_len, word, word_len, limit, marks, marks_len);
}
