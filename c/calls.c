/* calls.c: makes the calls that stand on standard input, one to a line, and prints the replies, both in the second
 * program's text form ("Many calls" in second/README.md). Every buffer has guard bytes before and behind it; these and
 * the buffers that are not lent must be the same after the call. Ends with 1 where they are not, and with 2 where a
 * line is not understood. */
#include <stdbool.h>
#include <stdio.h>
#include <stdlib.h>
#include <string.h>

#include "whitebeamish.h"

enum { GUARD = 64, FIELD = 48, NUMBERS = 5, SYMBOLS = 2, RUNS = 5 };

/* What a call takes, in this order: numbers, symbols, runs (the last of them lent), and an answer if it has results. */
struct form {
    const char *name;
    size_t numbers, symbols, runs, lent;
    bool answer;
};

static const struct form forms[] = {
    {"is_modulus", 1, 0, 0, 0, false}, {"sum", 1, 2, 0, 0, true},     {"difference", 1, 2, 0, 0, true},
    {"product", 1, 2, 0, 0, true},     {"inverse", 1, 1, 0, 0, true}, {"setting", 5, 0, 0, 0, true},
    {"encode", 3, 0, 3, 1, false},     {"check", 5, 0, 3, 0, true},   {"find", 5, 0, 4, 2, false},
    {"list", 5, 0, 5, 2, true},        {"read", 5, 0, 5, 3, true},
};

/* Numbers of one width between guards, and a copy of all as it was before the call. */
struct buffer {
    unsigned char *memory, *before;
    size_t width, length;
};

struct request {
    const struct form *form;
    size_t numbers[NUMBERS];
    uint16_t symbols[SYMBOLS];
    struct buffer runs[RUNS], answer;
};

static void fail(int status, const char *cause, const char *what) {
    fprintf(stderr, "calls: %s: %s\n", cause, what);
    exit(status);
}

/* The next field between white space; no at the end of input. */
static bool read_field(char field[FIELD]) {
    int c = getchar();
    size_t length = 0;
    while (c == ' ' || c == '\n')
        c = getchar();
    for (; c != EOF && c != ' ' && c != '\n'; c = getchar()) {
        if (length == FIELD - 1)
            fail(2, "too long", field);
        field[length++] = (char)c;
        field[length] = 0;
    }
    return length > 0;
}

static size_t parse(const char *digits, size_t most) {
    size_t number = 0;
    if (*digits == 0)
        fail(2, "a number is missing", "");
    for (const char *d = digits; *d != 0; d++) {
        size_t digit = (size_t)(*d - '0');
        if (*d < '0' || *d > '9' || number > (most - digit) / 10)
            fail(2, "not a number of its size", digits);
        number = 10 * number + digit;
    }
    return number;
}

static size_t read_number(size_t most) {
    char field[FIELD] = "";
    read_field(field);
    return parse(field, most);
}

static void *allocate(size_t size) {
    void *memory = malloc(size);
    if (memory == NULL)
        fail(2, "no memory", "for a run");
    return memory;
}

static uint16_t *symbols(const struct buffer *b) { return (uint16_t *)(void *)(b->memory + GUARD); }

static size_t *sizes(const struct buffer *b) { return (size_t *)(void *)(b->memory + GUARD); }

static size_t whole(const struct buffer *b) { return b->length * b->width + 2 * GUARD; }

static void store(struct buffer *b, size_t place, size_t number) {
    if (b->width == sizeof(uint16_t))
        symbols(b)[place] = (uint16_t)number;
    else
        sizes(b)[place] = number;
}

/* A run: its length and then its numbers, or "length=number" for one number repeated. */
static struct buffer read_run(size_t width) {
    const size_t most = width == sizeof(uint16_t) ? UINT16_MAX : SIZE_MAX;
    char field[FIELD] = "";
    read_field(field);
    char *repeated = strchr(field, '=');
    if (repeated != NULL)
        *repeated++ = 0;
    struct buffer b = {NULL, NULL, width, parse(field, 1 << 24)};
    b.memory = allocate(whole(&b));
    b.before = allocate(whole(&b));
    memset(b.memory, 0xA5, whole(&b));
    for (size_t i = 0; i < b.length; i++)
        store(&b, i, repeated != NULL ? parse(repeated, most) : read_number(most));
    memcpy(b.before, b.memory, whole(&b));
    return b;
}

static struct request read_request(const struct form *form) {
    struct request q = {.form = form};
    for (size_t i = 0; i < form->numbers; i++)
        q.numbers[i] = read_number(SIZE_MAX);
    for (size_t i = 0; i < form->symbols; i++)
        q.symbols[i] = (uint16_t)read_number(UINT16_MAX);
    for (size_t i = 0; i < form->runs; i++)
        q.runs[i] = read_run(sizeof(uint16_t));
    if (form->answer)
        q.answer = read_run(sizeof(size_t));
    return q;
}

/* Pointer and length, as the calls take them. */
#define RUN(i) symbols(&q->runs[i]), q->runs[i].length
#define ANSWER sizes(&q->answer), q->answer.length

static unsigned call_without_runs(const struct request *q) {
    const char *name = q->form->name;
    const size_t *v = q->numbers;
    const uint16_t a = q->symbols[0], b = q->symbols[1];
    if (strcmp(name, "is_modulus") == 0)
        return whitebeamish_is_modulus(v[0]);
    if (strcmp(name, "sum") == 0)
        return whitebeamish_sum(v[0], a, b, ANSWER);
    if (strcmp(name, "difference") == 0)
        return whitebeamish_difference(v[0], a, b, ANSWER);
    if (strcmp(name, "product") == 0)
        return whitebeamish_product(v[0], a, b, ANSWER);
    if (strcmp(name, "inverse") == 0)
        return whitebeamish_inverse(v[0], a, ANSWER);
    return whitebeamish_setting(v[0], v[1], v[2], v[3], v[4], ANSWER);
}

static unsigned call_with_runs(const struct request *q) {
    const char *name = q->form->name;
    const size_t *v = q->numbers;
    if (strcmp(name, "encode") == 0)
        return whitebeamish_encode(v[0], v[1], v[2], RUN(0), RUN(1), RUN(2));
    if (strcmp(name, "check") == 0)
        return whitebeamish_check(v[0], v[1], v[2], v[3], v[4], RUN(0), RUN(1), RUN(2), ANSWER);
    if (strcmp(name, "find") == 0)
        return whitebeamish_find(v[0], v[1], v[2], v[3], v[4], RUN(0), RUN(1), RUN(2), RUN(3));
    if (strcmp(name, "list") == 0)
        return whitebeamish_list(v[0], v[1], v[2], v[3], v[4], RUN(0), RUN(1), RUN(2), RUN(3), RUN(4), ANSWER);
    return whitebeamish_read(v[0], v[1], v[2], v[3], v[4], RUN(0), RUN(1), RUN(2), RUN(3), RUN(4), ANSWER);
}

static void print_reply(const struct request *q, unsigned returned) {
    printf("%u", returned);
    for (size_t i = 0; q->form->answer && i < q->answer.length; i++)
        printf(" %zu", sizes(&q->answer)[i]);
    puts("");
    for (size_t i = q->form->runs - q->form->lent; i < q->form->runs; i++) {
        printf("%zu", q->runs[i].length);
        for (size_t j = 0; j < q->runs[i].length; j++)
            printf(" %u", (unsigned)symbols(&q->runs[i])[j]);
        puts("");
    }
    puts("");
}

/* The guards of a lent buffer are as they were, and all of one that is not lent. */
static void expect_kept(const struct buffer *b, bool lent, const char *call) {
    const size_t kept = lent ? GUARD : whole(b), end = whole(b) - GUARD;
    if (memcmp(b->memory, b->before, kept) != 0 || memcmp(b->memory + end, b->before + end, GUARD) != 0)
        fail(1, "wrote where it may not", call);
}

static void release(struct buffer *b) {
    free(b->memory);
    free(b->before);
}

/* The loop in the header against the setting call: its tau is accepted, the next one and every larger one asked for is
 * not. */
static void expect_largest(const size_t v[NUMBERS], unsigned returned) {
    size_t tau = SIZE_MAX, none;
    const unsigned refused = whitebeamish_largest_tau(v[0], v[1], v[2], v[3], &tau);
    const bool found = whitebeamish_setting(v[0], v[1], v[2], v[3], tau, &none, 0) == WHITEBEAMISH_OK;
    const bool next = whitebeamish_setting(v[0], v[1], v[2], v[3], tau + 1, &none, 0) == WHITEBEAMISH_OK;
    const bool missed = returned == WHITEBEAMISH_OK && (refused != WHITEBEAMISH_OK || v[4] > tau);
    if (found != (refused == WHITEBEAMISH_OK) || (found && next) || missed)
        fail(1, "not the largest", "tau");
}

static void answer_request(struct request *q) {
    const struct form *form = q->form;
    const unsigned returned = form->runs > 0 ? call_with_runs(q) : call_without_runs(q);
    if (strcmp(form->name, "setting") == 0)
        expect_largest(q->numbers, returned);
    for (size_t i = 0; i < form->runs; i++)
        expect_kept(&q->runs[i], i >= form->runs - form->lent, form->name);
    if (form->answer)
        expect_kept(&q->answer, true, form->name);
    print_reply(q, returned);
    for (size_t i = 0; i < form->runs; i++)
        release(&q->runs[i]);
    release(&q->answer);
}

static const struct form *form_of(const char *name) {
    for (size_t i = 0; i < sizeof forms / sizeof *forms; i++)
        if (strcmp(forms[i].name, name) == 0)
            return &forms[i];
    fail(2, "no call", name);
    return NULL;
}

int main(void) {
    char name[FIELD];
    while (read_field(name)) {
        struct request q = read_request(form_of(name));
        answer_request(&q);
    }
    return 0;
}
