/* Calls the dock's archive as the firmware does: by its header, with numbers and byte slices only. What is expected is typed in
 * from document 01. */
#include <stdio.h>
#include <stdlib.h>
#include <string.h>

#include "images.h"
#include "valaiyoth.h"

#define COUNT(array) (sizeof(array) / sizeof((array)[0]))
#define ANSWER(kind, value) ((uint64_t)(kind) * 1000000 + (value))

static unsigned long checks;

#define EXPECT(holds) expect((holds), __LINE__, #holds)

static void expect(int holds, int line, const char *what) {
    checks++;
    if (!holds) {
        fprintf(stderr, "main.c:%d: not so: %s\n", line, what);
        exit(1);
    }
}

/* The mark buffer lies inside a larger one, at an offset that the test sets; all around it is a pattern. */
#define ROOM 64
static uint8_t around[ROOM + VALAIYOTH_MARKS + 1 + ROOM];

static uint8_t pattern(size_t i) { return (uint8_t)(i * 31 + i / 256 + 7); }

static void fill(void) {
    for (size_t i = 0; i < sizeof around; i++) around[i] = pattern(i);
}

/* The pattern stands everywhere but in the n bytes at offset. */
static int only_changed(size_t offset, size_t n) {
    for (size_t i = 0; i < sizeof around; i++)
        if ((i < offset || i >= offset + n) && around[i] != pattern(i)) return 0;
    return 1;
}

static unsigned ones(const uint8_t *bytes, size_t n) {
    unsigned sum = 0;
    for (size_t i = 0; i < n; i++)
        for (unsigned bit = 0; bit < 8; bit++) sum += bytes[i] >> bit & 1u;
    return sum;
}

static int all_zero(const uint8_t *bytes, size_t n) {
    for (size_t i = 0; i < n; i++)
        if (bytes[i] != 0) return 0;
    return 1;
}

/* Judges with marks at an offset, and holds what every answer owes: a refusal writes nothing; a verdict fixes the marks. */
static uint64_t judge_at(size_t offset, size_t marks_len, const uint8_t *image, size_t image_len, const void *word,
                         size_t word_len, uint64_t limit) {
    fill();
    uint64_t answer = valaiyoth_judge(image, image_len, word, word_len, limit, around + offset, marks_len);
    EXPECT(answer != 0);
    if (VALAIYOTH_KIND(answer) >= VALAIYOTH_IMAGE_MALFORMED) {
        EXPECT(only_changed(0, 0));
    } else {
        const uint8_t *marks = around + offset;
        EXPECT(only_changed(offset, VALAIYOTH_MARKS));
        EXPECT(ones(marks, VALAIYOTH_MARKS / 2) == VALAIYOTH_VALUE(answer));
        EXPECT(all_zero(marks + VALAIYOTH_MARKS / 2, VALAIYOTH_MARKS / 2));
        EXPECT(marks[0] & 1); /* the start is reached */
    }
    return answer;
}

static uint64_t judge(const uint8_t *image, size_t image_len, const char *word, uint64_t limit) {
    return judge_at(ROOM, VALAIYOTH_MARKS, image, image_len, word, strlen(word), limit);
}

static int marked(size_t state, size_t cell, size_t counter) {
    size_t index = (state * 64 + cell) * 32 + counter;
    return around[ROOM + index / 8] >> (index % 8) & 1;
}

#define IMAGE(name) image_##name, sizeof image_##name

static const struct {
    const uint8_t *image;
    size_t image_len;
} images[] = {
    {IMAGE(empty)},      {IMAGE(bal)},    {IMAGE(accept)},        {IMAGE(move)},   {IMAGE(lower_false)}, {IMAGE(lower_true)},
    {IMAGE(while_zero)}, {IMAGE(choose)}, {IMAGE(choose_accept)}, {IMAGE(branch)}, {IMAGE(if_and)},      {IMAGE(move_63)},
};

/* Document 01's sample verdicts; a count of 0 is one that it does not give. */
static const struct {
    const uint8_t *image;
    size_t image_len;
    const char *word;
    uint64_t low, high; /* the limits */
    uint64_t verdict, count;
} samples[] = {
    {IMAGE(bal), "", 31, 31, VALAIYOTH_YES, 4},
    {IMAGE(bal), "u", 0, 0, VALAIYOTH_LIMIT_MET, 4},
    {IMAGE(bal), "ruu", 0, 31, VALAIYOTH_NO, 0},
    {IMAGE(accept), "", 0, 0, VALAIYOTH_YES, 1},
    {IMAGE(move), "", 0, 0, VALAIYOTH_NO, 2},
    {IMAGE(lower_false), "", 0, 0, VALAIYOTH_NO, 1},
    {IMAGE(lower_true), "", 0, 0, VALAIYOTH_YES, 2},
    {IMAGE(while_zero), "", 0, 0, VALAIYOTH_NO, 2},
    {IMAGE(choose), "", 3, 3, VALAIYOTH_LIMIT_MET, 15},
    {IMAGE(choose_accept), "", 3, 3, VALAIYOTH_YES, 15},
    {IMAGE(choose_accept), "", 0, 0, VALAIYOTH_YES, 3},
    {IMAGE(branch), "", 0, 0, VALAIYOTH_YES, 5},
    {IMAGE(branch), "", 1, 1, VALAIYOTH_YES, 9},
    {IMAGE(if_and), "", 0, 0, VALAIYOTH_YES, 3},
    /* a program that ends does not accept, on the empty word and on others */
    {IMAGE(empty), "", 0, 31, VALAIYOTH_NO, 1},
    {IMAGE(empty), "aaa", 0, 31, VALAIYOTH_NO, 1},
    /* the run reads the left mark, which differs from every letter, whatever the word */
    {IMAGE(if_and), "a", 0, 31, VALAIYOTH_YES, 3},
    /* one run passes the limit and another accepts */
    {IMAGE(branch), "a", 0, 0, VALAIYOTH_YES, 5},
};

static void sample_verdicts(void) {
    for (size_t i = 0; i < COUNT(samples); i++)
        for (uint64_t limit = samples[i].low; limit <= samples[i].high; limit++) {
            uint64_t answer = judge(samples[i].image, samples[i].image_len, samples[i].word, limit);
            EXPECT(VALAIYOTH_KIND(answer) == samples[i].verdict);
            EXPECT(samples[i].count == 0 || VALAIYOTH_VALUE(answer) == samples[i].count);
        }
}

static void mark_bits(void) {
    EXPECT(judge(IMAGE(move), "", 0) == ANSWER(VALAIYOTH_NO, 2));
    EXPECT(marked(0, 0, 0) && marked(1, 1, 0));
    EXPECT(around[ROOM] == 1 && around[ROOM + 260] == 1);
    /* move(63) stops at the right mark, cell 4 */
    EXPECT(judge(IMAGE(move_63), "aaa", 9) == ANSWER(VALAIYOTH_NO, 2));
    EXPECT(marked(0, 0, 0) && marked(1, 4, 0));
    /* the loop that counts: in state 2, its body, the counter takes every value up to the limit */
    EXPECT(judge(IMAGE(choose), "", 31) == ANSWER(VALAIYOTH_LIMIT_MET, 127));
    for (size_t counter = 0; counter < 32; counter++) EXPECT(marked(2, 0, counter));
}

static void long_words(void) {
    char word[65];
    memset(word, 'a', 64);
    word[64] = 0;
    EXPECT(judge(IMAGE(accept), word + 2, 0) == ANSWER(VALAIYOTH_YES, 1));        /* 62 */
    EXPECT(judge(IMAGE(accept), word + 1, 0) == ANSWER(VALAIYOTH_WORD_TOO_LONG, 0)); /* 63 */
    EXPECT(judge(IMAGE(accept), word, 0) == ANSWER(VALAIYOTH_WORD_TOO_LONG, 0));
    EXPECT(judge(IMAGE(move_63), word + 2, 0) == ANSWER(VALAIYOTH_NO, 2));
    EXPECT(marked(1, 63, 0));

    memset(word, 'u', 31);
    memset(word + 31, 'r', 31);
    word[62] = 0;
    EXPECT(VALAIYOTH_KIND(judge(IMAGE(bal), word, 31)) == VALAIYOTH_YES);
    EXPECT(VALAIYOTH_KIND(judge(IMAGE(bal), word, 30)) == VALAIYOTH_LIMIT_MET);
    word[61] = 'u';
    EXPECT(VALAIYOTH_KIND(judge(IMAGE(bal), word, 31)) == VALAIYOTH_NO);
    word[0] = 'r';
    EXPECT(VALAIYOTH_KIND(judge(IMAGE(bal), word, 0)) == VALAIYOTH_NO);
    word[62] = 'u';
    word[63] = 0;
    EXPECT(judge(IMAGE(bal), word, 31) == ANSWER(VALAIYOTH_WORD_TOO_LONG, 0));
}

static void each_refusal(void) {
    /* 21: cut anywhere, or with anything behind it */
    for (size_t i = 0; i < COUNT(images); i++) {
        uint8_t copy[256];
        size_t n = images[i].image_len;
        memcpy(copy, images[i].image, n);
        EXPECT(valaiyoth_check(copy, n) == 1);
        for (size_t cut = 0; cut < n; cut++) {
            EXPECT(valaiyoth_check(copy, cut) == ANSWER(VALAIYOTH_IMAGE_MALFORMED, 0));
            EXPECT(judge(copy, cut, "", 0) == ANSWER(VALAIYOTH_IMAGE_MALFORMED, 0));
        }
        for (unsigned more = 0; more < 256; more++) {
            copy[n] = (uint8_t)more;
            EXPECT(valaiyoth_check(copy, n + 1) == ANSWER(VALAIYOTH_IMAGE_MALFORMED, 0));
        }
        EXPECT(memcmp(copy, images[i].image, n) == 0);
    }
    /* 23: the first byte outside, wherever it stands and whatever it is */
    uint8_t word[62];
    for (unsigned byte = 0; byte < 256; byte++) {
        if (byte == 'u' || byte == 'r') continue;
        for (size_t at = 0; at < sizeof word; at += byte % 7 + 1) {
            memset(word, 'u', sizeof word);
            memset(word + at, (int)byte, sizeof word - at);
            EXPECT(valaiyoth_judge(IMAGE(bal), word, sizeof word, 31, around, VALAIYOTH_MARKS) ==
                   ANSWER(VALAIYOTH_BYTE_OUTSIDE, at));
        }
    }
    EXPECT(judge(IMAGE(bal), "ux", 31) == ANSWER(VALAIYOTH_BYTE_OUTSIDE, 1));
    EXPECT(judge(IMAGE(bal), "U", 31) == ANSWER(VALAIYOTH_BYTE_OUTSIDE, 0));
    /* 24 */
    static const uint64_t limits[] = {32, 33, 63, 64, 255, 256, 65536, (uint64_t)1 << 32, ((uint64_t)1 << 32) + 1, UINT64_MAX};
    for (size_t i = 0; i < COUNT(limits); i++) EXPECT(judge(IMAGE(bal), "ur", limits[i]) == ANSWER(VALAIYOTH_LIMIT_TOO_HIGH, 0));
    EXPECT(VALAIYOTH_KIND(judge(IMAGE(bal), "ur", 31)) == VALAIYOTH_YES);
    /* 25 */
    static const size_t lengths[] = {0, 1, 32768, VALAIYOTH_MARKS - 1, VALAIYOTH_MARKS + 1};
    for (size_t i = 0; i < COUNT(lengths); i++)
        EXPECT(judge_at(ROOM, lengths[i], IMAGE(bal), "ur", 2, 31) == ANSWER(VALAIYOTH_MARKS_LENGTH, 0));
    EXPECT(VALAIYOTH_KIND(judge_at(ROOM, VALAIYOTH_MARKS, IMAGE(bal), "ur", 2, 31)) == VALAIYOTH_YES);
}

/* Any of the five refusals together: the lowest number is given. */
static void order_of_refusals(void) {
    static uint8_t word[64];
    for (unsigned set = 0; set < 32; set++) {
        size_t image_len = sizeof image_bal - (set & 1u);
        size_t word_len = set & 2u ? 63 : 62;
        memset(word, 'r', sizeof word);
        if (set & 4u) word[40] = word[50] = 'x';
        uint64_t limit = set & 8u ? 32 : 31;
        size_t marks_len = set & 16u ? VALAIYOTH_MARKS - 1 : VALAIYOTH_MARKS;
        uint64_t answer = judge_at(ROOM, marks_len, image_bal, image_len, word, word_len, limit);
        if (set & 1u)
            EXPECT(answer == ANSWER(21, 0));
        else if (set & 2u)
            EXPECT(answer == ANSWER(22, 0));
        else if (set & 4u)
            EXPECT(answer == ANSWER(23, 40));
        else if (set & 8u)
            EXPECT(answer == ANSWER(24, 0));
        else if (set & 16u)
            EXPECT(answer == ANSWER(25, 0));
        else
            EXPECT(VALAIYOTH_KIND(answer) == VALAIYOTH_NO);
    }
}

/* Image, word and marks at every address from even to odd give the same answer and the same marks. */
static void odd_addresses(void) {
    static uint8_t first[VALAIYOTH_MARKS];
    static uint8_t image_room[sizeof image_bal + 16];
    uint8_t word_room[32];
    uint64_t expected = judge_at(ROOM, VALAIYOTH_MARKS, IMAGE(bal), "uurrur", 6, 31);
    EXPECT(VALAIYOTH_KIND(expected) == VALAIYOTH_YES);
    memcpy(first, around + ROOM, VALAIYOTH_MARKS);
    for (size_t shift = 0; shift < 16; shift++) {
        memcpy(image_room + shift, image_bal, sizeof image_bal);
        memcpy(word_room + 15 - shift, "uurrur", 6);
        size_t offset = ROOM - shift;
        EXPECT(valaiyoth_check(image_room + shift, sizeof image_bal) == 1);
        uint64_t answer =
            judge_at(offset, VALAIYOTH_MARKS, image_room + shift, sizeof image_bal, word_room + 15 - shift, 6, 31);
        EXPECT(answer == expected);
        EXPECT(memcmp(around + offset, first, VALAIYOTH_MARKS) == 0);
        EXPECT(memcmp(image_room + shift, image_bal, sizeof image_bal) == 0);
        EXPECT(memcmp(word_room + 15 - shift, "uurrur", 6) == 0);
    }
}

/* Old contents of the marks do not matter. */
static void old_contents(void) {
    static uint8_t first[VALAIYOTH_MARKS];
    EXPECT(judge(IMAGE(choose), "", 31) == ANSWER(VALAIYOTH_LIMIT_MET, 127));
    memcpy(first, around + ROOM, VALAIYOTH_MARKS);
    static const int fillings[] = {0x00, 0xFF, 0x55, 0x01};
    for (size_t i = 0; i < COUNT(fillings); i++) {
        memset(around + ROOM, fillings[i], VALAIYOTH_MARKS);
        EXPECT(valaiyoth_judge(IMAGE(choose), (const uint8_t *)"", 0, 31, around + ROOM, VALAIYOTH_MARKS) ==
               ANSWER(VALAIYOTH_LIMIT_MET, 127));
        EXPECT(memcmp(around + ROOM, first, VALAIYOTH_MARKS) == 0);
    }
    /* and a buffer that an earlier verdict left serves as it is */
    EXPECT(valaiyoth_judge(IMAGE(accept), (const uint8_t *)"", 0, 0, around + ROOM, VALAIYOTH_MARKS) ==
           ANSWER(VALAIYOTH_YES, 1));
    EXPECT(around[ROOM] == 1 && all_zero(around + ROOM + 1, VALAIYOTH_MARKS - 1));
}

/* Length 0 for each slice, and for all of them. */
static void lengths_of_zero(void) {
    uint8_t one[1] = {0xA5};
    EXPECT(valaiyoth_check(one, 0) == ANSWER(VALAIYOTH_IMAGE_MALFORMED, 0));
    EXPECT(valaiyoth_judge(one, 0, one, 0, 0, one, 0) == ANSWER(VALAIYOTH_IMAGE_MALFORMED, 0));
    EXPECT(valaiyoth_judge(IMAGE(bal), one, 0, 0, one, 0) == ANSWER(VALAIYOTH_MARKS_LENGTH, 0));
    EXPECT(valaiyoth_judge(IMAGE(bal), one, 0, 32, one, 0) == ANSWER(VALAIYOTH_LIMIT_TOO_HIGH, 0));
    EXPECT(one[0] == 0xA5);
    for (uint64_t limit = 0; limit < 32; limit++) EXPECT(judge(IMAGE(bal), "", limit) == ANSWER(VALAIYOTH_YES, 4));
}

int main(void) {
    sample_verdicts();
    mark_bits();
    long_words();
    each_refusal();
    order_of_refusals();
    odd_addresses();
    old_contents();
    lengths_of_zero();
    printf("the dock's archive from C: %lu checks\n", checks);
    return 0;
}
