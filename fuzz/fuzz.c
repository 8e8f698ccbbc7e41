/*
 * A fuzzer over every entry of the C interface: any bytes are a call. Lent memory stands between
 * guards; after each call the guards must be whole, and a refused call must have changed no lent
 * byte. fuzz/run builds it with libFuzzer and runs it.
 *
 * The library is proved code without the fuzzer's probes. What guides the search instead is what it
 * answers: each pair of an entry and a refusal number, and each size of a value, is a counter.
 */
#include "munchalep.h"

#include <stdio.h>
#include <stdlib.h>
#include <string.h>

#define GUARD 64
#define FILL 0x5A
#define ENTRIES 18
#define TURNS 24
#define MOST_LENT (MUNCHALEP_END_BYTES * 512)

/* libFuzzer takes every byte of this section that is not 0 for something new that was reached. */
__attribute__((section("__libfuzzer_extra_counters"))) static uint8_t reached[ENTRIES][64][32];

/* The bytes of the input, in order; zeros after their end. */
static struct {
    const uint8_t *next;
    size_t left;
} input;

static uint8_t take(void)
{
    if (input.left == 0)
        return 0;
    input.left--;
    return *input.next++;
}

static void take_bytes(void *to, size_t n)
{
    uint8_t *bytes = to;

    while (n-- > 0)
        *bytes++ = take();
}

/* Mostly a small number, at times a huge one. */
static uint64_t take_number(void)
{
    uint64_t n = take();

    return n < 250 ? n : UINT64_MAX >> (n - 250);
}

/* A board with few checkers, so that many are accepted; or any 26 bytes. */
static void take_board(int8_t board[26])
{
    uint8_t left = take();

    if (left >= 250) {
        take_bytes(board, 26);
        return;
    }
    memset(board, 0, 26);
    for (left %= 31; left > 0; left--) {
        uint8_t where = take();
        int8_t *entry = &board[where % 26];

        if (where < 128 ? *entry >= 0 : *entry <= 0)
            *entry = (int8_t)(*entry + (where < 128 ? 1 : -1));
    }
}

/* Lent memory of n bytes, between guards, with a copy of what it held. */
static uint8_t memory[GUARD + MOST_LENT + GUARD];
static uint8_t before[MOST_LENT];
static size_t lent_bytes;

static void *lend(size_t n)
{
    lent_bytes = n;
    memset(memory, FILL, GUARD + n + GUARD);
    take_bytes(memory + GUARD, n < 128 ? n : 128);
    memcpy(before, memory + GUARD, n);
    return memory + GUARD;
}

/* The same memory with these bytes in it. */
static void *lend_bytes(const uint8_t *bytes, size_t n, size_t room)
{
    lend(room);
    memcpy(memory + GUARD, bytes, n < room ? n : room);
    memcpy(before, memory + GUARD, room);
    return memory + GUARD;
}

/* A card from the board with turns of the input, at times with a byte changed or cut short. */
static size_t take_card(const int8_t board[26], uint8_t card[MUNCHALEP_START_BYTES + 5 * TURNS])
{
    size_t room = MUNCHALEP_START_BYTES + 5 * TURNS, length = MUNCHALEP_START_BYTES, turn;

    memset(card, 0, room);
    munchalep_card_begin(board, card, room);
    for (turn = take() % (TURNS + 1); turn > 0; turn--) {
        size_t die1 = 1 + take() % 6, die2 = 1 + take() % 6;
        uint64_t count, answer;
        int8_t from[26], end[26];

        if (munchalep_card_position(card, length, (length - 12) / 5, from) != 0)
            break;
        count = munchalep_value_of(munchalep_count(from, die1, die2));
        if (count == 0 || munchalep_end(from, die1, die2, take() % count, end) != 0)
            break;
        answer = munchalep_card_add(card, room, length, die1, die2, end);
        if (munchalep_refusal_of(answer) != 0)
            break;
        length = munchalep_value_of(answer);
    }
    if (take() % 2)
        card[take() % length] = take();
    return take() % 4 ? length : length - take() % length;
}

static void fail(const char *what, unsigned entry, uint64_t answer)
{
    fprintf(stderr, "%s: entry %u, answer %llu\n", what, entry, (unsigned long long)answer);
    abort();
}

static void check(unsigned entry, uint64_t answer)
{
    unsigned refusal = munchalep_refusal_of(answer), size = 0;
    uint64_t value;
    size_t i;

    for (i = 0; i < GUARD; i++)
        if (memory[i] != FILL || memory[GUARD + lent_bytes + i] != FILL)
            fail("a byte beside the lent memory changed", entry, answer);
    if (refusal != 0 && memcmp(memory + GUARD, before, lent_bytes) != 0)
        fail("a refused call changed lent memory", entry, answer);
    if (refusal > 36)
        fail("no such refusal", entry, answer);
    for (value = munchalep_value_of(answer); value > 0; value >>= 1)
        size++;
    reached[entry][refusal][size & 31]++;
}

int LLVMFuzzerTestOneInput(const uint8_t *data, size_t length)
{
    unsigned entry;
    int8_t board[26], end[26], seen[26];
    uint8_t key[10], card[MUNCHALEP_START_BYTES + 5 * TURNS];
    uint64_t first, second, answer = 0;
    size_t n;
    void *lent = NULL;

    input.next = data;
    input.left = length;
    entry = take() % ENTRIES;
    take_board(board);
    first = take_number();
    second = take_number();
    n = (take() | (size_t)take() << 8) % (MOST_LENT + 1);
    switch (entry) {
    case 0: lent = lend(0); answer = munchalep_check(board); break;
    case 1: lent = lend(26); answer = munchalep_switch(board, lent); break;
    case 2: lent = lend(26); answer = munchalep_step(board, first, second, lent); break;
    case 3: lent = lend(0); answer = munchalep_result(board); break;
    case 4: lent = lend(n); answer = munchalep_list(board, first, second, lent, n); break;
    case 5: lent = lend(0); answer = munchalep_count(board, first, second); break;
    case 6: lent = lend(26); answer = munchalep_end(board, first, second, take_number(), lent); break;
    case 7: lent = lend(10); answer = munchalep_key(board, lent); break;
    case 8:
        take_bytes(key, sizeof key);
        lent = lend(26);
        answer = munchalep_board_of_key(key, lent);
        break;
    case 9:
        /* An end of the roll as its mover sees it, or any board. */
        take_board(end);
        if (munchalep_end(board, first, second, take(), seen) == 0)
            munchalep_switch(seen, end);
        n %= 6;
        lent = lend(n * sizeof(struct munchalep_step));
        answer = munchalep_recover(board, end, first, second, lent, n);
        break;
    case 10:
    case 11:
        n = (entry == 10 ? MUNCHALEP_CONTACT_INPUTS : MUNCHALEP_RACE_INPUTS) + n % 5 - 2;
        lent = lend(n * sizeof(float));
        answer = entry == 10 ? munchalep_contact_inputs(board, lent, n)
                             : munchalep_race_inputs(board, lent, n);
        break;
    case 12: lent = lend(sizeof(float)); answer = munchalep_contact_input(board, first, lent); break;
    case 13: lent = lend(sizeof(float)); answer = munchalep_race_input(board, first, lent); break;
    case 14: n %= 32; lent = lend(n); answer = munchalep_card_begin(board, lent, n); break;
    case 15:
        length = take_card(board, card);
        take_board(end);
        if (munchalep_card_position(card, length, (length - 12) / 5, seen) == 0)
            munchalep_end(seen, first, second, take(), end);
        n = length + n % 8 - 1;
        lent = lend_bytes(card, length, n);
        answer = munchalep_card_add(lent, n, length, first, second, end);
        break;
    case 16:
        length = take_card(board, card);
        lent = lend_bytes(card, length, length);
        answer = munchalep_card_read(lent, length);
        break;
    case 17:
        length = take_card(board, card);
        lent = lend(26);
        answer = munchalep_card_position(card, length, first, lent);
        break;
    }
    check(entry, answer);
    return 0;
}
