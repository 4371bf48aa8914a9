/* example.c: writes a patch, damages it beyond half the code's distance and prints every message that still fits;
 * then a word of seven marks that has two readings. Needs whitebeamish.h and libwhitebeamish.a only. */
#include <stdio.h>
#include <stdlib.h>

#include "whitebeamish.h"

struct setting {
    size_t p, n, k, s, tau;
};

static void expect(uint16_t refusal, const char *call) {
    if (refusal != WHITEBEAMISH_OK) {
        fprintf(stderr, "%s: refused with %u\n", call, (unsigned)refusal);
        exit(EXIT_FAILURE);
    }
}

static uint16_t *room(size_t length) {
    uint16_t *numbers = malloc(length * sizeof *numbers);
    if (numbers == NULL) {
        fputs("no memory\n", stderr);
        exit(EXIT_FAILURE);
    }
    return numbers;
}

static void print(const char *name, const uint16_t *numbers, size_t length) {
    fputs(name, stdout);
    for (size_t i = 0; i < length; i++)
        printf(" %u", (unsigned)numbers[i]);
}

/* The places in which the patch of the message agrees with the word. */
static size_t agreements(struct setting a, const uint16_t *points, const uint16_t *word, const uint16_t *message) {
    uint16_t patch[WHITEBEAMISH_N_MAX];
    size_t count = 0;
    expect(whitebeamish_encode(a.p, a.n, a.k, points, a.n, message, a.k, patch, a.n), "encode");
    for (size_t j = 0; j < a.n; j++)
        if (patch[j] == word[j])
            count++;
    return count;
}

/* Asks the setting for the room, reads the word, and prints each message of the list. */
static void print_readings(struct setting a, const uint16_t *points, const uint16_t *word) {
    size_t derived[5], found[2];
    expect(whitebeamish_setting(a.p, a.n, a.k, a.s, a.tau, derived, 5), "setting");
    size_t W = derived[0], l = derived[1], R = derived[4];
    uint16_t *output = room(l * a.k), *curve = room((l + 1) * W), *work = room(R);
    expect(whitebeamish_read(a.p, a.n, a.k, a.s, a.tau, points, a.n, word, a.n,
                             output, l * a.k, curve, (l + 1) * W, work, R, found, 2), "read");
    printf("readings: %zu\n", found[0]);
    for (size_t j = 0; j < found[0]; j++) {
        const uint16_t *message = output + j * a.k;
        print("+", message, a.k);
        printf("  agrees in %zu of %zu places\n", agreements(a, points, word, message), a.n);
    }
    free(output);
    free(curve);
    free(work);
}

/* 32 marks that carry 8 symbols. Half the distance mends 12 wrong marks; here 15 are wrong, as many as multiplicity 2
 * allows. */
static void damaged(void) {
    struct setting a = {929, 32, 8, 2, 0};
    const uint16_t message[8] = {1, 740, 15, 928, 0, 303, 66, 5};
    uint16_t points[32], word[32];
    expect(whitebeamish_largest_tau(a.p, a.n, a.k, a.s, &a.tau), "largest_tau");
    for (size_t j = 0; j < 32; j++)
        points[j] = (uint16_t)j;
    expect(whitebeamish_encode(a.p, a.n, a.k, points, a.n, message, a.k, word, a.n), "encode");
    print("message:", message, 8);
    print("\npatch:  ", word, 32);
    for (size_t j = 0; j < a.tau; j++)
        word[2 * j] = (uint16_t)((word[2 * j] + 100 + 37 * j) % a.p);
    print("\nword:   ", word, 32);
    printf("\n%zu marks are wrong\n", a.tau);
    print_readings(a, points, word);
}

/* Three of seven marks may be wrong, one more than half the distance mends, and two messages fit. */
static void seven(void) {
    const struct setting a = {7, 7, 2, 1, 3};
    const uint16_t points[7] = {0, 1, 2, 3, 4, 5, 6};
    const uint16_t word[7] = {0, 0, 0, 0, 4, 5, 6};
    print("word:", word, 7);
    puts("");
    print_readings(a, points, word);
}

int main(void) {
    damaged();
    puts("");
    seven();
    /* A list of which a part was lost looks like a whole one: say so. */
    if (ferror(stdout) != 0 || fclose(stdout) != 0) {
        perror("standard output");
        return EXIT_FAILURE;
    }
    return 0;
}
