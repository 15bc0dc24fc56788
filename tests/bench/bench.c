/* Times the product's judge and two plain ones side by side on tables that are easy for one way of searching and hard for
 * another. All must give the same answer and the same marks. With a number of seconds as its word it goes on to search
 * for bad ratios among random tables for that long. Run by hand; no test. */
#define _POSIX_C_SOURCE 200809L
#include <stdio.h>
#include <stdlib.h>
#include <string.h>
#include <time.h>

#include "images.h"
#include "plain.h"
#include "valaiyoth.h"

#define REPETITIONS 7
#define ANY 18
#define LEND 16
#define REND 17
#define EITHER 2
#define ZERO 0
#define ABOVE 1
#define TO_LEND 0
#define TO_REND 128
#define BY(n) (64 + (n))
#define CHANGE(n) (31 + (n))
#define STAY BY(0)
#define SAME CHANGE(0)

/* An image in the making: its header, then rows. The alphabet is "ab"; words have a alone unless the case says otherwise. */
static struct image {
    uint8_t bytes[8246];
    size_t length, rows_length_at;
    unsigned rows;
} image;

static void put(unsigned byte) { image.bytes[image.length++] = (uint8_t)byte; }

static void start(unsigned states, int decr_on_zero) {
    static const uint8_t head[] = {1, 0, 1, 1, 2, 0, 2, 'a', 'b'};
    image.length = 0;
    image.rows = 0;
    for (size_t i = 0; i < sizeof head; i++) put(head[i]);
    put(3), put(0), put(1), put(decr_on_zero != 0);
    put(4), put(0), put(2), put(0), put(states);
    put(5), put(0), put(16);
    for (int i = 0; i < 16; i++) put(0);
    put(6);
    image.rows_length_at = image.length;
    put(0), put(0);
}

static void row(unsigned from, unsigned symbol, unsigned test, int motion, int change, unsigned to) {
    put(0), put(from), put(symbol), put(test), put((unsigned)motion), put((unsigned)change), put(0), put(to);
    image.rows++;
    image.bytes[image.rows_length_at] = (uint8_t)(image.rows * 8 >> 8);
    image.bytes[image.rows_length_at + 1] = (uint8_t)(image.rows * 8);
}

static void free_row(unsigned from, unsigned to) { row(from, ANY, EITHER, STAY, SAME, to); }

/* Rows out of `from` that take the next cell, and behind the last one the first cell with the counter one higher: so that one
 * run comes through every cell and counter. */
static void next_place(unsigned from, unsigned to) {
    row(from, LEND, EITHER, BY(1), SAME, to);
    row(from, 0, EITHER, BY(1), SAME, to);
    row(from, REND, EITHER, TO_LEND, CHANGE(1), to);
}

static uint8_t ours_marks[VALAIYOTH_MARKS], plain_marks[VALAIYOTH_MARKS], lean_marks[VALAIYOTH_MARKS];

typedef uint64_t judge_function(const uint8_t *, size_t, const uint8_t *, size_t, uint64_t, uint8_t *, size_t);

static double microseconds(clockid_t clock) {
    struct timespec t;
    clock_gettime(clock, &t);
    return (double)t.tv_sec * 1e6 + (double)t.tv_nsec / 1e3;
}

static double once(judge_function *judge, uint8_t *marks, const uint8_t *word, size_t word_len, uint64_t limit, unsigned times) {
    /* the time that this program has had, whatever else the machine does */
    double begin = microseconds(CLOCK_PROCESS_CPUTIME_ID);
    for (unsigned i = 0; i < times; i++) judge(image.bytes, image.length, word, word_len, limit, marks, VALAIYOTH_MARKS);
    return (microseconds(CLOCK_PROCESS_CPUTIME_ID) - begin) / times;
}

struct result {
    uint64_t answer;
    double ours, plain, lean;
};

/* The best of some repetitions, each at least about half a millisecond long, turn and turn about; what takes the plain judge
 * more than `most` microseconds is not measured, and its ratio is 1. */
static struct result measure(const uint8_t *word, size_t word_len, uint64_t limit, unsigned repetitions, double most) {
    struct result r = {0, 1e18, 1e18, 1e18};
    uint64_t answer = plain_judge(image.bytes, image.length, word, word_len, limit, plain_marks, VALAIYOTH_MARKS);
    uint64_t lean = lean_judge(image.bytes, image.length, word, word_len, limit, lean_marks, VALAIYOTH_MARKS);
    r.answer = valaiyoth_judge(image.bytes, image.length, word, word_len, limit, ours_marks, VALAIYOTH_MARKS);
    if (r.answer != answer || lean != answer || memcmp(ours_marks, plain_marks, VALAIYOTH_MARKS) != 0 ||
        memcmp(lean_marks, plain_marks, VALAIYOTH_MARKS) != 0) {
        printf("the judges differ: ours %llu, plain %llu\n", (unsigned long long)r.answer, (unsigned long long)answer);
        exit(1);
    }
    double first = once(plain_judge, plain_marks, word, word_len, limit, 1);
    if (first > most) return r;
    unsigned times = first > 500 ? 1 : (unsigned)(500 / (first + 0.1)) + 1;
    for (unsigned i = 0; i < repetitions; i++) {
        double plain = once(plain_judge, plain_marks, word, word_len, limit, times);
        double lean_time = once(lean_judge, lean_marks, word, word_len, limit, times);
        double ours = once(valaiyoth_judge, ours_marks, word, word_len, limit, times);
        if (plain < r.plain) r.plain = plain;
        if (lean_time < r.lean) r.lean = lean_time;
        if (ours < r.ours) r.ours = ours;
    }
    return r;
}

static double worst;

static void print(const char *name, struct result r) {
    double ratio = r.ours / r.plain;
    if (ratio > worst) worst = ratio;
    printf("%-64s %5u %7llu %10.1f %10.1f %7.2f %10.1f %7.2f%s\n", name, image.rows,
           (unsigned long long)VALAIYOTH_VALUE(r.answer), r.ours, r.plain, ratio, r.lean, r.ours / r.lean,
           ratio > 10 ? "  OVER 10" : "");
    fflush(stdout);
}

static const uint8_t *letters62(void) {
    static uint8_t word[62];
    memset(word, 'a', sizeof word);
    return word;
}

static void run(const char *name, size_t word_len, uint64_t limit) {
    print(name, measure(letters62(), word_len, limit, REPETITIONS, 1e18));
}

static void fixed(const uint8_t *bytes, size_t length, unsigned rows) {
    memcpy(image.bytes, bytes, length);
    image.length = length;
    image.rows = rows;
}

/* A run through the states of `order`, again and again, once for each cell and counter. With `dead` the row that goes on stands
 * first, and a row to a state that ends the run is marked last: order[i] plus dead. */
static void cycle(const unsigned *order, unsigned n, int dead) {
    free_row(0, order[0]);
    for (unsigned i = 0; i < n; i++) {
        if (i + 1 < n)
            free_row(order[i], order[i + 1]);
        else
            next_place(order[i], order[0]);
        if (dead != 0) free_row(order[i], (unsigned)((int)order[i] + dead));
    }
}

static void cycles(void) {
    static const char *const ways[] = {"down through the states", "zigzag between low and high states"};
    static const char *const versions[] = {"one run", "branching, dead ends above", "branching, dead ends below"};
    static const int dead[] = {0, 64, -64};
    for (int way = 0; way < 2; way++)
        for (int version = 0; version < 3; version++) {
            /* 127 states when all go on; else 63, with as many dead ones above or below */
            unsigned n = version == 0 ? 127 : 63, low = version == 2 ? 65 : 1, order[127];
            for (unsigned i = 0; i < n; i++) {
                if (way == 0)
                    order[i] = low + n - 1 - i;
                else
                    order[i] = i % 2 == 0 ? low + n - 1 - i / 2 : low + i / 2;
            }
            char name[100];
            snprintf(name, sizeof name, "%s, %s", ways[way], versions[version]);
            start(128, 0);
            cycle(order, n, dead[version]);
            run(name, 62, 31);
        }
}

/* Up by a chain of states, down in one state, then the next cell. */
static void counting(void) {
    for (int branching = 0; branching < 2; branching++) {
        start(128, 0);
        free_row(0, 1);
        for (unsigned s = 1; s <= 31; s++) {
            row(s, ANY, EITHER, STAY, CHANGE(1), s + 1);
            if (branching) free_row(s, s + 64);
        }
        row(32, ANY, ABOVE, STAY, CHANGE(-1), 32);
        if (branching) row(32, ANY, ABOVE, STAY, SAME, 96);
        row(32, 0, ZERO, BY(1), SAME, 1);
        row(32, LEND, ZERO, BY(1), SAME, 1);
        if (branching) row(32, ANY, ZERO, STAY, SAME, 97);
        run(branching ? "counts up and down, branching" : "counts up and down, one run", 62, 31);
    }
    for (int branching = 0; branching < 2; branching++) {
        start(128, 0);
        unsigned n = branching ? 60 : 120;
        free_row(0, 1);
        for (unsigned s = 1; s <= n; s++) {
            if (s < n)
                row(s, ANY, EITHER, STAY, s % 2 == 1 ? CHANGE(31) : CHANGE(-31), s + 1);
            else
                row(s, ANY, EITHER, BY(1), CHANGE(-31), 1);
            if (branching) free_row(s, s + 64);
        }
        run(branching ? "counts up and down by 31, branching" : "counts up and down by 31, one run", 62, 31);
    }
}

/* Down through the cells in one state, with next to no rows. */
static void cells_down(void) {
    start(2, 0);
    row(0, ANY, EITHER, TO_REND, SAME, 1);
    row(1, ANY, EITHER, BY(-1), SAME, 1);
    run("down through the cells in one state", 62, 31);

    start(2, 0);
    row(0, ANY, EITHER, TO_REND, SAME, 1);
    row(1, 0, EITHER, BY(-1), SAME, 1);
    row(1, REND, EITHER, BY(-1), SAME, 1);
    row(1, LEND, EITHER, TO_REND, CHANGE(1), 1);
    run("down through the cells in one state, each counter", 62, 31);

    start(1, 0);
    row(0, LEND, EITHER, TO_REND, SAME, 0);
    row(0, ANY, EITHER, BY(-1), SAME, 0);
    run("down through the cells, one state in all", 62, 31);

    start(1, 1);
    row(0, ANY, ZERO, STAY, CHANGE(31), 0);
    row(0, ANY, ABOVE, BY(1), CHANGE(-1), 0);
    run("down through the counters and up through the cells, one state", 62, 31);

    start(1, 0);
    row(0, ANY, EITHER, BY(1), SAME, 0);
    run("up through the cells, one state and one row", 62, 31);
}

static void all_situations(void) {
    start(128, 0);
    for (unsigned s = 0; s < 128; s++) {
        row(s, ANY, EITHER, BY(1), SAME, s);
        row(s, ANY, EITHER, STAY, CHANGE(1), s);
        if (s < 127) free_row(s, s + 1);
    }
    run("all situations", 62, 31);

    start(128, 1);
    for (unsigned s = 0; s < 128; s++) {
        row(s, ANY, EITHER, BY(1), SAME, s);
        row(s, ANY, EITHER, STAY, CHANGE(1), s);
        free_row(s, (s + 1) % 128);
        row(s, ANY, EITHER, BY(-1), SAME, s);
        row(s, ANY, EITHER, STAY, CHANGE(-1), s);
        row(s, 0, ABOVE, BY(7), CHANGE(3), (s + 64) % 128);
        row(s, REND, EITHER, TO_LEND, CHANGE(-9), (s + 127) % 128);
        row(s, LEND, ZERO, TO_REND, CHANGE(2), (s * 5 + 1) % 128);
    }
    run("1,024 rows, all situations", 62, 31);
}

static void many_rows(void) {
    /* only the last of 1,024 rows fits, in each of few situations */
    start(2, 0);
    for (int i = 0; i < 1023; i++) row(0, 1, ABOVE, BY(1), SAME, 1);
    row(0, ANY, EITHER, BY(1), SAME, 0);
    run("1,024 rows in one state, the last one fits", 62, 31);

    /* rows that all but fit, in every situation of one state */
    static const struct {
        const char *name;
        unsigned symbol, test;
        int change;
    } misses[] = {
        {"1,021 rows fail by the symbol", 1, EITHER, SAME},
        {"1,021 rows fail by the counter's test", ANY, ZERO, SAME},
        {"1,021 rows fail by lowering below zero", ANY, EITHER, CHANGE(-31)},
        {"1,021 rows fail by the limit", ANY, EITHER, CHANGE(31)},
        {"1,021 rows fit and lead to what is reached", ANY, EITHER, SAME},
    };
    for (size_t m = 0; m < sizeof misses / sizeof misses[0]; m++) {
        start(1, 0);
        for (int i = 0; i < 1021; i++) row(0, misses[m].symbol, misses[m].test, STAY, misses[m].change, 0);
        next_place(0, 0);
        run(misses[m].name, 62, 31);
    }

    start(1, 0);
    for (int i = 0; i < 512; i++) {
        row(0, ANY, EITHER, BY(i % 127 - 63), SAME, 0);
        row(0, ANY, EITHER, STAY, CHANGE(i % 63 - 31), 0);
    }
    run("1,024 rows in one state, all fit", 62, 31);

    start(128, 0);
    for (unsigned i = 0; i < 1024; i++) row(i % 128, ANY, EITHER, BY((int)(i / 128)), SAME, (i * 37 + 11) % 128);
    run("1,024 rows, no counter", 62, 31);
}

/* A search for bad ratios: random tables by a generator of their own, each changed step by step as long as that makes the
 * ratio worse. */
static uint64_t random_state = 88172645463325252u;

static unsigned below(unsigned n) {
    random_state ^= random_state << 13;
    random_state ^= random_state >> 7;
    random_state ^= random_state << 17;
    return (unsigned)(random_state >> 11) % n;
}

struct some_row {
    unsigned from, symbol, test, to;
    int motion, change;
};

struct some_table {
    unsigned states, rows;
    int decr_on_zero;
    size_t word_len;
    uint64_t limit;
    struct some_row row[1024];
};

/* How the rows of a table are made: where they go, how far they move, what they add. */
struct habit {
    unsigned to, move, change, multiplier, shift;
};

static struct some_row random_row(const struct habit *h, unsigned from, unsigned states) {
    struct some_row r = {from, ANY, EITHER, from, STAY, SAME};
    if (h->to == 0) r.to = below(states);
    if (h->to == 1) r.to = (from * h->multiplier + h->shift) % states;
    if (h->to == 2) r.to = (from + states - 1) % states;
    if (h->move == 1) r.motion = BY((int)below(3) - 1);
    if (h->move == 2) r.motion = BY(-1);
    if (h->move == 3) r.motion = (int)below(129);
    if (h->change == 1) r.change = CHANGE((int)below(3) - 1);
    if (h->change == 2) r.change = CHANGE(1);
    if (h->change == 3) r.change = (int)below(63);
    if (below(4) == 0) r.symbol = below(3) ? 0 : LEND + below(2);
    if (below(4) == 0) r.test = below(2);
    return r;
}

static struct habit random_habit(unsigned states) {
    struct habit h = {below(4), below(4), below(4), 2 * below(64) + 1, below(states)};
    return h;
}

static void random_table(struct some_table *t) {
    static const unsigned sizes[] = {1, 2, 3, 5, 8, 20, 60, 128};
    t->states = sizes[below(8)];
    t->decr_on_zero = (int)below(2);
    t->word_len = below(4) ? 62 : below(63);
    t->limit = below(4) ? 31 : below(32);
    struct habit h = random_habit(t->states);
    t->rows = t->states * (1 + below(3));
    for (unsigned i = 0; i < t->rows; i++) t->row[i] = random_row(&h, i % t->states, t->states);
}

static void change_table(struct some_table *t) {
    struct habit h = random_habit(t->states);
    for (unsigned n = 1 + below(3); n > 0; n--) {
        unsigned kind = below(6), at = t->rows ? below(t->rows) : 0;
        if (kind == 0 && t->rows > 0) {
            t->row[at] = t->row[--t->rows];
        } else if (kind <= 2 && t->rows < 1024) {
            t->row[t->rows++] = random_row(&h, below(t->states), t->states);
        } else if (kind == 3 && t->states < 128) {
            t->states++;
        } else if (t->rows > 0) {
            t->row[at] = random_row(&h, t->row[at].from, t->states);
        }
    }
}

static struct result measure_table(const struct some_table *t, unsigned repetitions) {
    start(t->states, t->decr_on_zero);
    for (unsigned i = 0; i < t->rows; i++) {
        const struct some_row *r = &t->row[i];
        row(r->from, r->symbol, r->test, r->motion, r->change, r->to);
    }
    return measure(letters62(), t->word_len, t->limit, repetitions, 3000);
}

static void random_tables(int seconds) {
    static struct some_table best, other;
    double end = microseconds(CLOCK_MONOTONIC) + seconds * 1e6, shown = 0;
    unsigned long tried = 0;
    while (microseconds(CLOCK_MONOTONIC) < end) {
        random_table(&best);
        struct result r = measure_table(&best, 2);
        double ratio = r.ours / r.plain;
        tried++;
        for (unsigned without = 0; without < 40 && microseconds(CLOCK_MONOTONIC) < end; without++) {
            other = best;
            change_table(&other);
            r = measure_table(&other, 2);
            tried++;
            if (r.ours / r.plain > ratio) {
                best = other;
                ratio = r.ours / r.plain;
                without = 0;
            }
        }
        if (ratio > shown) {
            r = measure_table(&best, REPETITIONS);
            if (r.ours / r.plain <= shown) continue;
            shown = r.ours / r.plain;
            char name[100];
            snprintf(name, sizeof name, "random, table %lu: %u states, %zu letters, limit %llu", tried, best.states, best.word_len,
                     (unsigned long long)best.limit);
            print(name, r);
        }
    }
    printf("%lu random tables\n", tried);
}

int main(int words, char **word) {
    printf("%-64s %5s %7s %10s %10s %7s %10s %7s\n", "case", "rows", "reached", "ours (us)", "plain (us)", "ratio", "lean (us)",
           "ratio");

    uint8_t brackets[62];
    memset(brackets, 'u', 31);
    memset(brackets + 31, 'r', 31);
    fixed(image_bal, sizeof image_bal, 19);
    print("balanced brackets, 62 letters", measure(brackets, 62, 31, REPETITIONS, 1e18));
    all_situations();
    many_rows();
    cycles();
    counting();
    cells_down();
    fixed(image_accept, sizeof image_accept, 0);
    run("a trivial rule, no letters", 0, 0);
    run("a trivial rule, 62 letters", 62, 31);
    fixed(image_empty, sizeof image_empty, 0);
    run("the empty rule, no letters", 0, 0);
    if (words > 1) random_tables(atoi(word[1]));
    printf("worst ratio: %.2f\n", worst);
    return 0;
}
