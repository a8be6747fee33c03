/* A C program that calls every function of include/larizemba.h with good and bad arguments (01, module 9). tests/edge/run builds and runs it.

   What is judged after each call: the answer, the number lent and its neighbours, the text, the rest of the output, the canaries round the output,
   and that the inputs are as they were. Inputs end where a page begins that may not be touched, so reading behind one ends the program.

   `loader N` with N from 1 spoils one of these on purpose, and then has to fail: tests/edge/run --self-test tries each. */
#define _DEFAULT_SOURCE
#include <stdio.h>
#include <stdlib.h>
#include <string.h>
#include <sys/mman.h>

#include "larizemba.h"

enum { GUARD = 64, MOST = 256, PAGE = 4096, INPUTS = 3 };
enum { WRONG_ANSWER = 1, WRONG_NUMBER, WRONG_TEXT, WRONG_REST, WRONG_BEFORE, WRONG_BEHIND, WRONG_NEIGHBOUR, WRONG_INPUT, PLANTS = WRONG_INPUT };

static int plant;
static unsigned checks, failed, checks_before, failed_before;

static void judge(bool good, const char *what, size_t a, size_t b) {
    checks++;
    if (good) return;
    failed++;
    printf("  failed: %s, %zu, %zu\n", what, a, b);
}

/* one line for each function */
static void done(const char *function) {
    printf("%s: %u checks, %u failed\n", function, checks - checks_before, failed - failed_before);
    checks_before = checks;
    failed_before = failed;
}

/* a number to lend, between two others */
static size_t number[3];

static size_t *lend_number(void) {
    for (int i = 0; i < 3; i++) number[i] = 0x5a5a5a5a5a5a5a5au;
    return &number[1];
}

static bool number_is(size_t want) {
    if (plant == WRONG_NUMBER) number[1]++;
    if (plant == WRONG_NEIGHBOUR) number[2]++;
    return number[1] == want && number[0] == 0x5a5a5a5a5a5a5a5au && number[2] == 0x5a5a5a5a5a5a5a5au;
}

/* inputs: copies that end at a page that may not be touched */
static struct input { uint8_t *page, *at; const void *data; size_t len; } inputs[INPUTS];

static void make_inputs(void) {
    for (int i = 0; i < INPUTS; i++) {
        void *got = mmap(NULL, 2 * PAGE, PROT_READ | PROT_WRITE, MAP_PRIVATE | MAP_ANONYMOUS, -1, 0);
        if (got == MAP_FAILED || mprotect((uint8_t *)got + PAGE, PAGE, PROT_NONE) != 0) {
            printf("edge: no memory for the inputs\n");
            exit(2);
        }
        inputs[i].page = got;
    }
}

static const void *lend_data(int i, const void *data, size_t len) {
    struct input *in = &inputs[i];
    in->data = data;
    in->len = len;
    in->at = data ? in->page + PAGE - len : NULL;
    if (len) memcpy(in->at, data, len);
    return in->at;
}

/* NULL stands for NULL with length 0 */
static const uint8_t *lend_input(int i, const char *text) { return lend_data(i, text, text ? strlen(text) : 0); }

/* line ends: numbers, so the length lent is not that of the bytes */
static const size_t *lend_ends(int i, const size_t *ends, size_t count) { return lend_data(i, ends, count * sizeof *ends); }

static bool inputs_are(void) {
    bool same = true;
    for (int i = 0; i < INPUTS; i++) {
        struct input *in = &inputs[i];
        if (in->len && plant == WRONG_INPUT) in->at[0]++;
        if (in->len && memcmp(in->at, in->data, in->len) != 0) same = false;
        in->data = NULL;
        in->len = 0;
    }
    return same;
}

/* the output: canaries that differ from place to place round it and in it */
static uint8_t field[GUARD + MOST + GUARD];
static size_t room;

static uint8_t canary(size_t at) { return (uint8_t)(0x80 + at % 97); }

static uint8_t *lend_output(size_t n) {
    if (n > MOST) {
        printf("edge: no room for an output of %zu bytes\n", n);
        exit(2);
    }
    for (size_t i = 0; i < sizeof field; i++) field[i] = canary(i);
    room = n;
    return n ? field + GUARD : NULL;
}

static bool canaries_are(size_t from, size_t to) {
    for (size_t i = from; i < to; i++)
        if (field[i] != canary(i)) return false;
    return true;
}

/* the text at the front, and all the rest of the field as it was */
static bool output_is(const char *text) {
    size_t n = strlen(text);
    if (n && plant == WRONG_TEXT) field[GUARD]++;
    if (plant == WRONG_REST && n < room) field[GUARD + n]++;
    if (plant == WRONG_BEFORE) field[GUARD - 1]++;
    if (plant == WRONG_BEHIND) field[GUARD + room]++;
    return n <= room && memcmp(field + GUARD, text, n) == 0 && canaries_are(0, GUARD) && canaries_are(GUARD + n, sizeof field);
}

/* Every writer is called through one of these, with the same trials of the room: enough and more, just enough, one too few, none with NULL. */
struct record {
    const char *head, *id, *desc, *seq;
    bool with_desc;
    size_t wrap;
    /* the same record as it stands in bytes */
    const char *bytes;
    size_t start;
    const size_t *ends;
    size_t count;
};
typedef uint32_t writer(const struct record *r, size_t *len, uint8_t *out, size_t out_len);

static uint32_t head(const struct record *r, size_t *len, uint8_t *out, size_t out_len) {
    const uint8_t *h = lend_input(0, r->head);
    return larizemba_write_head(h, inputs[0].len, len, out, out_len);
}

static uint32_t id_desc(const struct record *r, size_t *len, uint8_t *out, size_t out_len) {
    const uint8_t *i = lend_input(0, r->id), *d = lend_input(1, r->desc);
    return larizemba_write_id_desc(i, inputs[0].len, r->with_desc, d, inputs[1].len, len, out, out_len);
}

static uint32_t seq(const struct record *r, size_t *len, uint8_t *out, size_t out_len) {
    const uint8_t *s = lend_input(0, r->seq);
    return larizemba_write_seq(s, inputs[0].len, len, out, out_len);
}

static uint32_t wrap_seq(const struct record *r, size_t *len, uint8_t *out, size_t out_len) {
    const uint8_t *s = lend_input(0, r->seq);
    return larizemba_write_wrap_seq(s, inputs[0].len, r->wrap, len, out, out_len);
}

static uint32_t to(const struct record *r, size_t *len, uint8_t *out, size_t out_len) {
    const uint8_t *h = lend_input(0, r->head), *s = lend_input(1, r->seq);
    return larizemba_write_to(h, inputs[0].len, s, inputs[1].len, len, out, out_len);
}

static uint32_t parts(const struct record *r, size_t *len, uint8_t *out, size_t out_len) {
    const uint8_t *i = lend_input(0, r->id), *d = lend_input(1, r->desc), *s = lend_input(2, r->seq);
    return larizemba_write_parts(i, inputs[0].len, r->with_desc, d, inputs[1].len, s, inputs[2].len, len, out, out_len);
}

static uint32_t wrap(const struct record *r, size_t *len, uint8_t *out, size_t out_len) {
    const uint8_t *i = lend_input(0, r->id), *d = lend_input(1, r->desc), *s = lend_input(2, r->seq);
    return larizemba_write_wrap(i, inputs[0].len, r->with_desc, d, inputs[1].len, s, inputs[2].len, r->wrap, len, out, out_len);
}

static uint32_t wrap_seq_iter(const struct record *r, size_t *len, uint8_t *out, size_t out_len) {
    const uint8_t *b = lend_input(0, r->bytes);
    const size_t *e = lend_ends(1, r->ends, r->count);
    return larizemba_write_wrap_seq_iter(b, inputs[0].len, r->start, e, r->count, r->wrap, len, out, out_len);
}

static uint32_t unchanged(const struct record *r, size_t *len, uint8_t *out, size_t out_len) {
    const uint8_t *b = lend_input(0, r->bytes);
    const size_t *e = lend_ends(1, r->ends, r->count);
    return larizemba_write_unchanged(b, inputs[0].len, r->start, e, r->count, len, out, out_len);
}

static void call(writer *w, const struct record *r, size_t n, uint32_t want, size_t len, const char *text) {
    uint8_t *out = lend_output(n);
    size_t *lent = lend_number();
    uint32_t got = w(r, lent, out, n);
    if (plant == WRONG_ANSWER) got++;
    judge(got == want, "answer, and what was due", got, want);
    judge(number_is(len), "number, and what was due", number[1], len);
    judge(output_is(text), "output of this room, and the length due", n, strlen(text));
    judge(inputs_are(), "inputs", 0, 0);
}

/* the text that a record is due, in outputs of every length that matters */
static void writes(writer *w, struct record r, const char *text) {
    size_t n = strlen(text);
    call(w, &r, n + 7, LARIZEMBA_DONE, n, text);
    call(w, &r, n, LARIZEMBA_DONE, n, text);
    if (n) call(w, &r, n - 1, LARIZEMBA_ROOM, n, "");
    if (n) call(w, &r, 0, LARIZEMBA_ROOM, n, "");
}

/* a width 0 comes before the room */
static void refuses_width_0(writer *w, struct record r) {
    r.wrap = 0;
    call(w, &r, MOST, LARIZEMBA_WRAP, 0, "");
    call(w, &r, 0, LARIZEMBA_WRAP, 0, "");
}

#define BASES "ACGTTGCAACGGTTACGTACCATGACGTTGCAACGGTTACGTACCATGACGTTGCAACGG" /* 60 */

static const struct record plain = { .head = "id some words", .id = "id", .desc = "some words", .seq = "ACGTACGTAC", .with_desc = true, .wrap = 4 };
/* nothing in any part */
static const struct record bare = { .head = "", .id = "", .seq = "", .wrap = 4 };
/* NULL with length 0, with an empty description */
static const struct record null = { .with_desc = true, .wrap = SIZE_MAX };
/* bytes that mean something are written as they are */
static const struct record lines = { .head = "a\r\n>b", .id = "a b", .desc = "c", .seq = ">A\nC\r", .with_desc = true, .wrap = 1 };
/* long enough for the loops that copy many bytes at once */
static const struct record broad = { .head = BASES, .id = BASES, .desc = BASES, .seq = BASES BASES, .with_desc = true, .wrap = 60 };

static struct record unlike(struct record r, bool with_desc, size_t width) {
    r.with_desc = with_desc;
    r.wrap = width;
    return r;
}

/* heads and sequences */
static void part_writers(void) {
    writes(head, plain, ">id some words\n");
    writes(head, bare, ">\n");
    writes(head, null, ">\n");
    writes(head, lines, ">a\r\n>b\n");
    writes(head, broad, ">" BASES "\n");
    done("larizemba_write_head");

    writes(id_desc, plain, ">id some words\n");
    writes(id_desc, unlike(plain, false, 4), ">id\n");
    writes(id_desc, bare, ">\n");
    writes(id_desc, null, "> \n");
    writes(id_desc, lines, ">a b c\n");
    writes(id_desc, broad, ">" BASES " " BASES "\n");
    done("larizemba_write_id_desc");

    writes(seq, plain, "ACGTACGTAC\n");
    writes(seq, bare, "\n");
    writes(seq, null, "\n");
    writes(seq, lines, ">A\nC\r\n");
    writes(seq, broad, BASES BASES "\n");
    done("larizemba_write_seq");

    writes(wrap_seq, plain, "ACGT\nACGT\nAC\n");
    writes(wrap_seq, unlike(plain, true, 5), "ACGTA\nCGTAC\n");
    writes(wrap_seq, unlike(plain, true, 10), "ACGTACGTAC\n");
    writes(wrap_seq, unlike(plain, true, SIZE_MAX), "ACGTACGTAC\n");
    writes(wrap_seq, bare, "");
    writes(wrap_seq, null, "");
    writes(wrap_seq, lines, ">\nA\n\n\nC\n\r\n");
    writes(wrap_seq, broad, BASES "\n" BASES "\n");
    refuses_width_0(wrap_seq, plain);
    refuses_width_0(wrap_seq, null);
    done("larizemba_write_wrap_seq");
}

static void record_writers(void) {
    writes(to, plain, ">id some words\nACGTACGTAC\n");
    writes(to, bare, ">\n\n");
    writes(to, null, ">\n\n");
    writes(to, lines, ">a\r\n>b\n>A\nC\r\n");
    writes(to, broad, ">" BASES "\n" BASES BASES "\n");
    done("larizemba_write_to");

    writes(parts, plain, ">id some words\nACGTACGTAC\n");
    writes(parts, unlike(plain, false, 4), ">id\nACGTACGTAC\n");
    writes(parts, bare, ">\n\n");
    writes(parts, null, "> \n\n");
    writes(parts, lines, ">a b c\n>A\nC\r\n");
    writes(parts, unlike(broad, false, 4), ">" BASES "\n" BASES BASES "\n");
    done("larizemba_write_parts");

    writes(wrap, plain, ">id some words\nACGT\nACGT\nAC\n");
    writes(wrap, unlike(plain, false, 9), ">id\nACGTACGTA\nC\n");
    writes(wrap, unlike(plain, false, SIZE_MAX), ">id\nACGTACGTAC\n");
    writes(wrap, bare, ">\n");
    writes(wrap, null, "> \n");
    writes(wrap, lines, ">a b c\n>\nA\n\n\nC\n\r\n");
    writes(wrap, unlike(broad, false, 60), ">" BASES "\n" BASES "\n" BASES "\n");
    refuses_width_0(wrap, plain);
    refuses_width_0(wrap, null);
    done("larizemba_write_wrap");
}

/* a record in bytes, by its start and its ends: 0 stands for no more of them */
enum { ENDS = 5 };
typedef const size_t some_ends[ENDS];

static struct record standing(const char *bytes, size_t start, some_ends ends, size_t width) {
    struct record r = { .bytes = bytes, .start = start, .ends = ends, .wrap = width };
    while (ends && r.count < ENDS && ends[r.count]) r.count++;
    return r;
}

/* line ends that do not fit come before the width and the room */
static void refuses_ends(writer *w, struct record r) {
    const size_t widths[] = { 4, 0 };
    for (int i = 0; i < 2; i++) {
        r.wrap = widths[i];
        call(w, &r, MOST, LARIZEMBA_STATE, 0, "");
        call(w, &r, 0, LARIZEMBA_STATE, 0, "");
    }
}

/* blank lead, CRLF, an empty line, a record behind it */
#define MIXED "\n>id d\r\nACG\nTA\r\n\nC\n>b\nT\n" /* 24 */
#define LONG ">" BASES "\n" BASES "\n" BASES                /* 183 */

static some_ends mixed = { 7, 11, 15, 16, 18 }, behind_it = { 21, 23 }, head_alone = { 7 }, two_lines = { 7, 11 };
static some_ends bench = { 3, 6, 7 }, no_newline = { 3, 8 }, mark_alone = { 1 }, broad_ends = { 61, 122, 183 };

/* what both writers refuse */
static void refuse_ends(writer *w) {
    refuses_ends(w, standing(NULL, 0, NULL, 4)); /* nothing at all, NULL twice */
    refuses_ends(w, standing(MIXED, 1, NULL, 4));
    refuses_ends(w, standing(MIXED, 1, (some_ends){ 0 }, 4));
    refuses_ends(w, standing(NULL, 0, mark_alone, 4));
    refuses_ends(w, standing(MIXED, 1, mark_alone, 4)); /* an end on the start */
    refuses_ends(w, standing(MIXED, 1, (some_ends){ 7, 25 }, 4)); /* one behind the bytes */
    refuses_ends(w, standing(MIXED, 1, (some_ends){ SIZE_MAX }, 4));
    refuses_ends(w, standing(MIXED, 24, (some_ends){ 25 }, 4)); /* a start behind them, too */
    refuses_ends(w, standing(MIXED, 99, mixed, 4));
    refuses_ends(w, standing(MIXED, SIZE_MAX, mixed, 4));
    refuses_ends(w, standing(MIXED, SIZE_MAX, (some_ends){ SIZE_MAX }, 4));
}

static void standing_writers(void) {
    writes(wrap_seq_iter, standing(MIXED, 1, mixed, 4), "ACGT\nAC\n");
    writes(wrap_seq_iter, standing(MIXED, 1, mixed, 3), "ACG\nTAC\n");
    writes(wrap_seq_iter, standing(MIXED, 1, mixed, 1), "A\nC\nG\nT\nA\nC\n");
    writes(wrap_seq_iter, standing(MIXED, 1, mixed, SIZE_MAX), "ACGTAC\n");
    writes(wrap_seq_iter, standing(MIXED, 1, two_lines, 2), "AC\nG\n");
    writes(wrap_seq_iter, standing(MIXED, 1, head_alone, 4), "\n");
    writes(wrap_seq_iter, standing(MIXED, 19, behind_it, 4), "T\n");
    writes(wrap_seq_iter, standing(">id\nAC\n\n", 0, bench, 2), "AC\n");
    writes(wrap_seq_iter, standing(">id\nACGT", 0, no_newline, 4), "ACGT\n");
    writes(wrap_seq_iter, standing(">id\n\r", 0, (some_ends){ 3, 5 }, 4), "\n");
    writes(wrap_seq_iter, standing(">", 0, mark_alone, 4), "\n");
    writes(wrap_seq_iter, standing(LONG, 0, broad_ends, 60), BASES "\n" BASES "\n");
    writes(wrap_seq_iter, standing(LONG, 0, broad_ends, 120), BASES BASES "\n");
    refuses_width_0(wrap_seq_iter, standing(MIXED, 1, mixed, 0));
    refuses_width_0(wrap_seq_iter, standing(">", 0, mark_alone, 0));
    refuses_ends(wrap_seq_iter, standing(MIXED, 1, (some_ends){ 7, 11, 11, 16, 18 }, 4)); /* two the same */
    refuses_ends(wrap_seq_iter, standing(MIXED, 1, (some_ends){ 11, 7, 18 }, 4));         /* falling */
    refuses_ends(wrap_seq_iter, standing(MIXED, 7, two_lines, 4));                        /* the first not above the start */
    refuse_ends(wrap_seq_iter);
    done("larizemba_write_wrap_seq_iter");

    writes(unchanged, standing(MIXED, 1, mixed, 0), ">id d\r\nACG\nTA\r\n\nC\n");
    writes(unchanged, standing(MIXED, 1, two_lines, 0), ">id d\r\nACG\n");
    writes(unchanged, standing(MIXED, 1, head_alone, 0), ">id d\r\n");
    writes(unchanged, standing(MIXED, 19, behind_it, 0), ">b\nT\n");
    writes(unchanged, standing(">id\nAC\n\n", 0, bench, 0), ">id\nAC\n");
    writes(unchanged, standing(">id\nACGT", 0, no_newline, 0), ">id\nACGT\n");
    writes(unchanged, standing(">", 0, mark_alone, 0), ">\n");
    writes(unchanged, standing(LONG, 0, broad_ends, 0), LONG "\n");
    /* only the last end is looked at */
    writes(unchanged, standing(MIXED, 1, (some_ends){ 11, 7, 99, 1, 18 }, 0), ">id d\r\nACG\nTA\r\n\nC\n");
    refuses_ends(unchanged, standing(MIXED, 1, (some_ends){ 7, 1 }, 0)); /* the last not above the start */
    refuse_ends(unchanged);
    done("larizemba_write_unchanged");
}

/* the growth that is due, 0 for none */
static void grows(uint64_t kind, size_t n, size_t limit, size_t size, size_t window, size_t want) {
    size_t *next = lend_number();
    bool got = larizemba_grow_to(kind, n, limit, size, window, next);
    if (plant == WRONG_ANSWER) got = !got;
    judge(got == (want != 0), "whether this size grows, in this window", size, window);
    judge(number_is(want), "growth, and what was due", number[1], want);
}

static void growth(void) {
    const size_t mib8 = 8388608, giga2 = 2147483648u, half = (size_t)1 << 63;
    const uint64_t unknown[] = { 3, 256, (uint64_t)1 << 32, UINT64_MAX };

    grows(LARIZEMBA_STD_POLICY, 0, 0, 3, 20, 6);
    grows(LARIZEMBA_STD_POLICY, 0, 0, 6, 20, 12);
    grows(LARIZEMBA_STD_POLICY, 0, 0, 12, 20, 0);
    grows(LARIZEMBA_STD_POLICY, 1, 1, 12, 24, 24);
    grows(LARIZEMBA_STD_POLICY, 0, 0, mib8 - 1, giga2, 2 * mib8 - 2);
    grows(LARIZEMBA_STD_POLICY, 0, 0, mib8, giga2, 2 * mib8);
    grows(LARIZEMBA_STD_POLICY, 0, 0, 3 * mib8, giga2, 4 * mib8);
    grows(LARIZEMBA_STD_POLICY, 0, 0, giga2, 4 * giga2, giga2 + mib8); /* a window that no setup takes */
    grows(LARIZEMBA_STD_POLICY, 0, 0, 0, 20, 0);
    grows(LARIZEMBA_STD_POLICY, 0, 0, 20, 20, 0);
    grows(LARIZEMBA_STD_POLICY, 0, 0, 21, 20, 0);
    grows(LARIZEMBA_STD_POLICY, 0, 0, SIZE_MAX, SIZE_MAX, 0);
    grows(LARIZEMBA_DOUBLE_UNTIL, 8, 0, 7, 20, 14);
    grows(LARIZEMBA_DOUBLE_UNTIL, 8, 0, 8, 20, 16);
    grows(LARIZEMBA_DOUBLE_UNTIL, 8, 0, 12, 20, 20);
    grows(LARIZEMBA_DOUBLE_UNTIL, 8, 0, 12, 19, 0);
    grows(LARIZEMBA_DOUBLE_UNTIL, 0, 0, 12, 20, 0);
    grows(LARIZEMBA_DOUBLE_UNTIL, SIZE_MAX, 0, half - 1, SIZE_MAX, SIZE_MAX - 1);
    grows(LARIZEMBA_DOUBLE_UNTIL, SIZE_MAX, 0, half, SIZE_MAX, 0); /* the sum is 2^64 */
    grows(LARIZEMBA_DOUBLE_UNTIL_LIMITED, 8, 20, 3, 20, 6);
    grows(LARIZEMBA_DOUBLE_UNTIL_LIMITED, 8, 20, 12, 20, 20);
    grows(LARIZEMBA_DOUBLE_UNTIL_LIMITED, 8, 19, 12, 20, 0);
    grows(LARIZEMBA_DOUBLE_UNTIL_LIMITED, 8, SIZE_MAX, 12, 19, 0);
    grows(LARIZEMBA_DOUBLE_UNTIL_LIMITED, 8, 0, 3, 20, 0);
    for (size_t i = 0; i < sizeof unknown / sizeof *unknown; i++) grows(unknown[i], 8, 20, 3, 20, 0);
    done("larizemba_grow_to");
}

static void checks_setup(size_t capacity, uint64_t kind, size_t window, size_t slots, uint32_t want) {
    const size_t numbers[][2] = { { 0, 0 }, { 8, 20 }, { SIZE_MAX, SIZE_MAX } }; /* n and limit make no difference */
    for (int i = 0; i < 3; i++) {
        uint32_t got = larizemba_setup_check(capacity, kind, numbers[i][0], numbers[i][1], window, slots);
        if (plant == WRONG_ANSWER) got++;
        judge(got == want, "setup of this capacity in this window", capacity, window);
    }
}

static void setup(void) {
    const size_t giga2 = 2147483648u;
    const uint64_t unknown[] = { 3, 256, (uint64_t)1 << 32, UINT64_MAX };

    for (uint64_t kind = 0; kind < 3; kind++) {
        checks_setup(65536, kind, 65536, 4096, LARIZEMBA_DONE);
        checks_setup(3, kind, 3, 1, LARIZEMBA_DONE);
        checks_setup(2, kind, 3, 1, LARIZEMBA_SETUP);
        checks_setup(0, kind, 3, 1, LARIZEMBA_SETUP);
        checks_setup(4, kind, 3, 1, LARIZEMBA_SETUP);
        checks_setup(SIZE_MAX, kind, 3, 1, LARIZEMBA_SETUP);
        checks_setup(3, kind, 0, 1, LARIZEMBA_SETUP);
        checks_setup(giga2, kind, giga2, 1, LARIZEMBA_DONE);
        checks_setup(3, kind, giga2 + 1, 1, LARIZEMBA_SETUP);
        checks_setup(SIZE_MAX, kind, SIZE_MAX, 1, LARIZEMBA_SETUP);
        checks_setup(3, kind, 3, 0, LARIZEMBA_SETUP);
        checks_setup(3, kind, 3, SIZE_MAX, LARIZEMBA_DONE);
    }
    for (size_t i = 0; i < sizeof unknown / sizeof *unknown; i++) checks_setup(65536, unknown[i], 65536, 4096, LARIZEMBA_SETUP);
    done("larizemba_setup_check");
}

int main(int argc, char **argv) {
    if (argc > 1) plant = atoi(argv[1]);
    if (plant < 0 || plant > PLANTS) {
        printf("edge: there is no fault %d\n", plant);
        return 3;
    }
    make_inputs();
    growth();
    setup();
    part_writers();
    record_writers();
    standing_writers();
    printf("edge: %u checks, %u failed\n", checks, failed);
    return failed != 0;
}
