/*
 * The C interface, as a firmware would call it: first a game of two turns, from the roll to the
 * card that the players take home; then each kind of call by itself, refused ones too.
 */
#include "munchalep.h"

#include <stdio.h>
#include <stdlib.h>
#include <string.h>

static const int8_t start[26] = {
    0,  -2, 0, 0, 0,  0, 5,  0, 3, 0, 0, 0, -5,
    5,  0,  0, 0, -3, 0, -5, 0, 0, 0, 0, 2, 0,
};

/* Prints x's checkers from the bar down, then o's from its bar up, as point:count. */
static void print_board(const int8_t board[26])
{
    int i;

    printf(" x");
    for (i = 25; i >= 0; i--)
        if (board[i] > 0)
            printf(" %d:%d", i, board[i]);
    printf("; o");
    for (i = 0; i <= 25; i++)
        if (board[i] < 0)
            printf(" %d:%d", i, -board[i]);
    printf("\n");
}

/* Prints whether a call refused, and by which number. */
static void print_refusal(const char *call, uint64_t answer)
{
    if (munchalep_refusal_of(answer) == MUNCHALEP_NOT_REFUSED)
        printf("%s: not refused\n", call);
    else
        printf("%s: refused, %u\n", call, munchalep_refusal_of(answer));
}

/* Prints whether a call refused, and what stands in `out` after it. */
static void print_answer(const char *call, uint64_t answer, const int8_t out[26])
{
    print_refusal(call, answer);
    printf("    out:");
    print_board(out);
}

/* Prints the ends that a list has, as the other side sees them. */
static void print_ends(const uint8_t *list, uint64_t ends)
{
    uint64_t n;

    for (n = 0; n < ends; n++) {
        int8_t end[26];

        memcpy(end, list + n * MUNCHALEP_END_BYTES, MUNCHALEP_END_BYTES);
        printf("    end %u:", (unsigned)n);
        print_board(end);
    }
}

/* Prints the first places of a row of steps. */
static void print_row(const struct munchalep_step *row, uint64_t steps)
{
    uint64_t n;

    printf("    row:");
    for (n = 0; n < steps; n++)
        printf(" %u/%u", (unsigned)row[n].from, (unsigned)row[n].to);
    printf("\n");
}

/* Prints bytes in hex. */
static void print_bytes(const char *what, const uint8_t *bytes, uint64_t length)
{
    uint64_t i;

    printf("    %s:", what);
    for (i = 0; i < length; i++)
        printf(" %02X", bytes[i]);
    printf("\n");
}

/* The value of an answer where a refusal would be a fault of this example, and ends it. */
static uint64_t accepted(const char *call, uint64_t answer)
{
    print_refusal(call, answer);
    if (munchalep_refusal_of(answer) != MUNCHALEP_NOT_REFUSED)
        exit(EXIT_FAILURE);
    return munchalep_value_of(answer);
}

/* The first turn: the ends of 6-5 on the start board, and the steps behind the one played. */
static void first_turn(int8_t end[26])
{
    uint8_t list[7 * MUNCHALEP_END_BYTES];
    int8_t moved[26];
    struct munchalep_step row[MUNCHALEP_MOST_STEPS];
    uint64_t number;

    number = accepted("start, list of 6-5", munchalep_list(start, 6, 5, list, sizeof list));
    print_ends(list, number);
    memcpy(end, list + 6 * MUNCHALEP_END_BYTES, MUNCHALEP_END_BYTES);
    /* A list shows ends as the other side sees them. Steps are asked for as the mover sees both. */
    accepted("end 6, switch", munchalep_switch(end, moved));
    number = accepted("start, steps of 6-5 to it",
                      munchalep_recover(start, moved, 6, 5, row, MUNCHALEP_MOST_STEPS));
    print_row(row, number);
}

/*
 * The second turn, 3-1 by the other side. Here the board's sensors show where the checkers stand,
 * seen from the mover, so the sides are switched before it goes to the card.
 */
static void second_turn(const int8_t board[26], int8_t end[26])
{
    int8_t moved[26];

    memcpy(moved, board, sizeof moved);
    moved[8] -= 1;
    moved[6] -= 1;
    moved[5] += 2;
    accepted("end 6 with 8/5 6/5, switch", munchalep_switch(moved, end));
}

/* What a card tells, whole and without its last byte. */
static void read_card(const uint8_t *card, uint64_t length)
{
    int8_t out[26] = {0};
    uint64_t answer, turns = accepted("card, read", munchalep_card_read(card, length));

    printf("    turns: %u\n", (unsigned)turns);
    print_answer("card, position 1", munchalep_card_position(card, length, 1, out), out);
    answer = munchalep_card_read(card, length - 1);
    print_refusal("card without its last byte, read", answer);
    /* A refusal of reading has the byte offset of the refused record above its number. */
    printf("    at byte: %u\n", (unsigned)munchalep_value_of(answer));
}

static void game(void)
{
    static uint8_t card[MUNCHALEP_CARD_BYTES];
    uint8_t key[MUNCHALEP_KEY_BYTES];
    int8_t first[26], second[26];
    uint64_t length;

    printf("start:");
    print_board(start);
    first_turn(first);
    accepted("end 6, key", munchalep_key(first, key));
    print_bytes("key", key, MUNCHALEP_KEY_BYTES);
    second_turn(first, second);

    /* Each call answers the card's length, which the next one is given. */
    length = accepted("start, card", munchalep_card_begin(start, card, sizeof card));
    length = accepted("card, 6-5 added",
                      munchalep_card_add(card, sizeof card, length, 6, 5, first));
    length = accepted("card, 3-1 added",
                      munchalep_card_add(card, sizeof card, length, 3, 1, second));
    print_bytes("card", card, length);
    read_card(card, length);
}

static void check(void)
{
    int8_t sixteen[26] = {0};

    sixteen[24] = 15;
    sixteen[25] = 1;
    print_refusal("start, check", munchalep_check(start));
    print_refusal("x 25:1 24:15, check", munchalep_check(sixteen));
}

static void switch_sides(void)
{
    int8_t lone[26] = {0}, out[26] = {0};

    lone[25] = 1;
    lone[19] = -2;
    print_answer("x 25:1; o 19:2, switch", munchalep_switch(lone, out), out);
}

static void steps(void)
{
    int8_t out[26] = {0};

    print_answer("start, step from 8 by 3", munchalep_step(start, 8, 3, out), out);
    /* Refused, so `out` still has the board of the step before. */
    print_answer("start, step from 6 by 5", munchalep_step(start, 6, 5, out), out);
    print_answer("start, step from 8 by 7", munchalep_step(start, 8, 7, out), out);
}

static void result(void)
{
    static const int8_t empty[26] = {0};
    uint64_t answer = munchalep_result(start);

    print_refusal("start, result", answer);
    printf("    contact: %s\n", munchalep_value_of(answer) == MUNCHALEP_CONTACT ? "yes" : "no");
    print_refusal("empty board, result", munchalep_result(empty));
}

static void ends(void)
{
    int8_t lone[26] = {0}, out[26] = {0};
    uint8_t list[2 * MUNCHALEP_END_BYTES] = {0};
    uint64_t answer;

    lone[13] = 1;
    lone[12] = -1;
    answer = munchalep_list(lone, 2, 1, list, sizeof list);
    print_refusal("x 13:1; o 12:1, list of 2-1", answer);
    print_ends(list, munchalep_value_of(answer));
    print_answer("x 13:1; o 12:1, end 1 of 2-1", munchalep_end(lone, 2, 1, 1, out), out);
    /* Refused, so `out` still has end 1. */
    print_answer("x 13:1; o 12:1, end 2 of 2-1", munchalep_end(lone, 2, 1, 2, out), out);

    answer = munchalep_count(start, 3, 1);
    print_refusal("start, count of 3-1", answer);
    printf("    ends: %u\n", (unsigned)munchalep_value_of(answer));
    /* The list has room for two ends. It stays as it was, and the answer says how many there are. */
    answer = munchalep_list(start, 3, 1, list, sizeof list);
    print_refusal("start, list of 3-1, room for 2", answer);
    printf("    ends: %u\n", (unsigned)munchalep_value_of(answer));
    print_ends(list, 2);
}

static void recover(void)
{
    int8_t lone[26] = {0}, end[26] = {0};
    struct munchalep_step row[3] = {{0, 0}, {0, 0}, {99, 99}};
    uint64_t answer;

    /* x reaches 10 over 12, where o stood alone. The row's third place stays. */
    lone[13] = 1;
    lone[12] = -1;
    end[10] = 1;
    end[0] = -1;
    answer = munchalep_recover(lone, end, 2, 1, row, 3);
    print_refusal("x 13:1; o 12:1, steps of 2-1 to x 10:1; o 0:1", answer);
    printf("    steps: %u\n", (unsigned)munchalep_value_of(answer));
    print_row(row, 3);
    /* Refused, so the row still has those steps. */
    print_refusal("the same with one place", munchalep_recover(lone, end, 2, 1, row, 1));
    answer = munchalep_recover(lone, lone, 2, 1, row, 3);
    print_refusal("x 13:1; o 12:1, steps of 2-1 to itself", answer);
    print_row(row, 3);
}

static void keys(void)
{
    int8_t out[26] = {0};
    uint8_t key[MUNCHALEP_KEY_BYTES] = {0};

    print_refusal("start, key", munchalep_key(start, key));
    print_bytes("key", key, MUNCHALEP_KEY_BYTES);
    print_answer("board of that key", munchalep_board_of_key(key, out), out);
    /* A 1 in the place of its last 0 is a sixteenth checker of x. `out` still has the start board. */
    key[9] |= 0x80;
    print_answer("board of the key ending in B0", munchalep_board_of_key(key, out), out);
}

/* Prints the four values of a point, the first of which has the place. */
static void print_four(const char *point, const float *inputs, size_t place)
{
    const float *four = inputs + place;

    printf("    %s: %g %g %g %g\n", point, four[0], four[1], four[2], four[3]);
}

static void inputs(void)
{
    float contact[MUNCHALEP_CONTACT_INPUTS] = {0}, race[MUNCHALEP_RACE_INPUTS] = {0}, one = 0;

    print_refusal("start, contact inputs",
                  munchalep_contact_inputs(start, contact, MUNCHALEP_CONTACT_INPUTS));
    /* Two off counts, x's bar, and 24 points of x stand before o's bar and points. */
    print_four("x on 6", contact, 2 + 4 * 6);
    print_four("o on 1", contact, 2 + 4 * 26);
    print_refusal("start, race inputs", munchalep_race_inputs(start, race, MUNCHALEP_RACE_INPUTS));
    print_four("x on 6", race, 2 + 4 * 5);

    print_refusal("start, race input 25", munchalep_race_input(start, 25, &one));
    printf("    out: %g\n", one);
    /* Refused, so `out` and the floats are what they were. */
    print_refusal("start, race input 186",
                  munchalep_race_input(start, MUNCHALEP_RACE_INPUTS, &one));
    printf("    out: %g\n", one);
    print_refusal("start, race inputs in 202 floats",
                  munchalep_race_inputs(start, contact, MUNCHALEP_CONTACT_INPUTS));
    print_four("x on 6", contact, 2 + 4 * 6);
}

int main(void)
{
    game();
    check();
    switch_sides();
    steps();
    result();
    ends();
    recover();
    keys();
    inputs();
    return 0;
}
