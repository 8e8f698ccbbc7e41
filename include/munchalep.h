/*
 * Munchalep: which positions a backgammon roll may lead to.
 *
 * A board is 26 signed bytes, seen from x, the side to move. A positive entry
 * counts checkers of x, a negative one checkers of o. Entries 1 to 24 are the
 * points, and x moves towards 1. Entry 25 is x's bar, entry 0 is o's bar. A
 * side has 15 checkers; those not on the board are off.
 *
 * Nothing has to hold of a board or a number before a call: every function
 * takes any bytes and any numbers, and answers or refuses. Pointers are not
 * null, each points to as many entries as its parameter says, and what a
 * function writes does not overlap what it reads. Every number is a uint64_t, on
 * 32-bit processors too: that is the size that the proved functions take.
 *
 * Every function answers one uint64_t. Its low byte is the refusal number, 0
 * where nothing is refused; the 56 bits above it are a value, which each
 * function below describes. munchalep_refusal_of() and munchalep_value_of()
 * take the two apart. A board that is answered goes to `out`, a key to `key`,
 * the ends of a roll go to `list`, steps to `row`, the inputs of a net to
 * `inputs` and one of them to `out`, records of a card to `buffer`; a refusal
 * leaves every byte of them as it was. The value of a refusal is 0, but for 10
 * and for a card that is refused in reading, as told below. Where several
 * refusals apply, the one named first is given.
 *
 * No function keeps anything between calls, so threads may call them at once.
 */
#ifndef MUNCHALEP_H
#define MUNCHALEP_H

#include <stdint.h>

#ifdef __cplusplus
extern "C" {
#endif

/* Refusal numbers. "Ends" are the boards a roll may lead to. */
enum munchalep_refusal {
    MUNCHALEP_NOT_REFUSED = 0,

    /* Boards. */
    MUNCHALEP_X_OVER_15 = 1,          /* x has more than 15 checkers, every positive entry counted */
    MUNCHALEP_O_OVER_15 = 2,          /* o has more than 15 checkers, every negative entry counted */
    MUNCHALEP_X_BAR_NEGATIVE = 3,     /* entry 25, x's bar, is negative */
    MUNCHALEP_O_BAR_POSITIVE = 4,     /* entry 0, o's bar, is positive */
    MUNCHALEP_FINISHED = 5,           /* a side has all 15 off: no play, no card from here */
    MUNCHALEP_EMPTY_BOARD = 6,        /* no checker at all: no result, play or card either */

    /* Steps, plays and recovery. */
    MUNCHALEP_DIE_OUTSIDE_1_TO_6 = 7, /* a die outside 1 to 6 */
    MUNCHALEP_FROM_ABOVE_25 = 8,      /* a step from a point above 25 */
    MUNCHALEP_STEP_NOT_LEGAL = 9,     /* the step is not legal */
    MUNCHALEP_LIST_TOO_SHORT = 10,    /* under 26 bytes an end; the value is the number of ends */
    MUNCHALEP_NO_SUCH_END = 11,       /* the end number is not below the number of ends */
    MUNCHALEP_NOT_AN_END = 12,        /* the second board is not a legal end */
    MUNCHALEP_ROW_TOO_SHORT = 27,     /* fewer step places than the steps found */

    /* Inputs of the neural net. */
    MUNCHALEP_INPUTS_NOT_EXACT = 13,  /* not exactly 202 (contact) or 186 (race) values */
    MUNCHALEP_NO_SUCH_INPUT = 14,     /* the place is not below 202 (contact) or 186 (race) */

    /* Position ID keys. */
    MUNCHALEP_KEY_O_OVER_15 = 15,     /* the key gives o a sixteenth checker */
    MUNCHALEP_KEY_X_OVER_15 = 16,     /* the key gives x a sixteenth checker */
    MUNCHALEP_KEY_SHARED_POINT = 17,  /* the key has both sides on one point */
    MUNCHALEP_KEY_BIT_AFTER_END = 18, /* the key has a bit set after its last end bit */

    /* Game cards; in reading, the value is the byte offset of the refused record. */
    MUNCHALEP_CARD_TOO_SHORT = 19,    /* no room for the new record or the card's stated length */
    MUNCHALEP_START_TOO_SHORT = 20,   /* the start record has under 12 bytes */
    MUNCHALEP_START_MARK = 21,        /* the start record's mark is wrong */
    MUNCHALEP_TURN_LIMIT = 22,        /* a turn beyond the 1,000th */
    MUNCHALEP_TURN_TOO_SHORT = 23,    /* the turn record has under 5 bytes */
    MUNCHALEP_TURN_MARK = 24,         /* the turn record's mark is wrong */
    MUNCHALEP_TURN_AFTER_FINISH = 25, /* a turn after a finish */
    MUNCHALEP_NO_SUCH_ROLL = 26,      /* the dice byte is not one of the 21 */
    MUNCHALEP_NO_SUCH_POSITION = 36   /* the position number is above the number of turns */
};

/* Bytes of an end in a list, and the most ends that a roll can have. */
#define MUNCHALEP_END_BYTES 26
#define MUNCHALEP_MOST_ENDS 17550

/* Bytes of a Position ID key. */
#define MUNCHALEP_KEY_BYTES 10

/* What munchalep_result() says of a board, from x's side. */
enum munchalep_outcome {
    MUNCHALEP_CONTACT = 0,     /* unfinished, and the sides can still meet */
    MUNCHALEP_RACE = 1,        /* unfinished, and they are past each other */
    MUNCHALEP_WIN_NORMAL = 2,  /* x has all off, and o at least one */
    MUNCHALEP_WIN_GAMMON = 3,  /* x has all off, o none, and no o is on its bar or on 1 to 6 */
    MUNCHALEP_WIN_BG = 4,      /* x has all off, o none, and an o is on its bar or on 1 to 6 */
    MUNCHALEP_LOSE_NORMAL = 5, /* o has all off, and x at least one */
    MUNCHALEP_LOSE_GAMMON = 6, /* o has all off, x none, and no x is on its bar or on 19 to 24 */
    MUNCHALEP_LOSE_BG = 7      /* o has all off, x none, and an x is on its bar or on 19 to 24 */
};

/* The refusal number of an answer, 0 where nothing is refused. */
static inline unsigned munchalep_refusal_of(uint64_t answer)
{
    return (unsigned)(answer & 0xFFu);
}

/* The value of an answer: what stands above the refusal number. */
static inline uint64_t munchalep_value_of(uint64_t answer)
{
    return answer >> 8;
}

/* Whether the board is accepted. Refuses 1, 2, 3, 4. The value is 0. */
uint64_t munchalep_check(const int8_t board[26]);

/*
 * The board seen from the other side, to `out`: entry 25 - i of it is minus
 * entry i of the board. Refuses 1, 2, 3, 4. The value is 0.
 */
uint64_t munchalep_switch(const int8_t board[26], int8_t out[26]);

/*
 * The board after x moves one checker from `from` by `die`, to `out`, still
 * seen from x. It is one step of a play: whether the rest of the roll can be
 * played is not looked at, and finished boards are taken. Refuses 1, 2, 3, 4,
 * 7, 8, 9. The value is 0.
 */
uint64_t munchalep_step(const int8_t board[26], uint64_t from, uint64_t die, int8_t out[26]);

/*
 * The result, or where the game goes on its phase: the value is one of enum
 * munchalep_outcome. Refuses 1, 2, 3, 4, 6.
 */
uint64_t munchalep_result(const int8_t board[26]);

/*
 * The ends of a roll, to `list`: every board that x may leave, once, as the
 * other side sees it (sides switched), 26 bytes an end, two's complement. Where
 * nothing can be played there is one end, the board itself, switched. Here and
 * below the two dice may be given in either order. The value is the number of
 * ends; bytes after the last end stay as they were. Refuses 1, 2, 3, 4, 6, 5, 7,
 * 10.
 *
 * `length` is the number of bytes lent. A list under 26 bytes an end is refused
 * by 10, and then the value is the number of ends all the same. With room for
 * MUNCHALEP_MOST_ENDS none is refused by 10, and the ends are not counted
 * first, which takes less time.
 */
uint64_t munchalep_list(const int8_t board[26], uint64_t die1, uint64_t die2, uint8_t *list,
                        uint64_t length);

/* The number of ends of a roll, as the value. Refuses 1, 2, 3, 4, 6, 5, 7. */
uint64_t munchalep_count(const int8_t board[26], uint64_t die1, uint64_t die2);

/*
 * The end with a number, counted from 0 in the order of munchalep_list(), to
 * `out`, sides switched. Refuses 1, 2, 3, 4, 6, 5, 7, 11. The value is 0.
 */
uint64_t munchalep_end(const int8_t board[26], uint64_t die1, uint64_t die2, uint64_t number,
                       int8_t out[26]);

/* One step of one checker. `from` is 25 on the bar, and `to` is 0 off the board. */
struct munchalep_step {
    uint8_t from, to;
};

/* The most steps that a roll can have. */
#define MUNCHALEP_MOST_STEPS 4

/*
 * The steps behind an end, to `row`: x moves from `old` to `end` by two dice, and
 * the steps are legal one after another, as many as the dice used, and lead
 * there. Unlike the ends of munchalep_list(), `end` is seen from x, the side that
 * moved: munchalep_switch() turns one into the other. The value is the number of
 * steps, 0 where nothing can be played; places after them stay as they were.
 * Refuses 1, 2, 3, 4, 6, 5, 7 for `old` and the dice, then 12 where `end` is not
 * an end of the roll, then 27.
 *
 * `places` is the number of steps that the row lent has room for. A row with
 * fewer places than steps is refused by 27; with MUNCHALEP_MOST_STEPS none is.
 */
uint64_t munchalep_recover(const int8_t old[26], const int8_t end[26], uint64_t die1,
                           uint64_t die2, struct munchalep_step *row, uint64_t places);

/*
 * The board's key, to `key`: the ten bytes that GNU Backgammon's Position ID
 * spells in base64. Different boards have different keys. Refuses 1, 2, 3, 4.
 * The value is 0.
 */
uint64_t munchalep_key(const int8_t board[26], uint8_t key[10]);

/*
 * The board that has the key, to `out`. Any ten bytes may be given; those that
 * are no board's key are refused. Refuses 15, 16, 17, 18. The value is 0.
 */
uint64_t munchalep_board_of_key(const uint8_t key[10], int8_t out[26]);

/* Values that a neural net takes of a board. */
#define MUNCHALEP_CONTACT_INPUTS 202
#define MUNCHALEP_RACE_INPUTS 186

/*
 * The inputs of the contact net, to `inputs`, or those of the race net: `length`
 * is the number of floats lent and must be exactly MUNCHALEP_CONTACT_INPUTS, or
 * MUNCHALEP_RACE_INPUTS. Any accepted board may be given to either, finished and
 * empty ones too. Refuses 1, 2, 3, 4, 13. The value is 0.
 *
 * First come x's checkers off and o's, then four values a point. Contact: x's
 * bar, x on 1 to 24, o on 0 to 24. Race: x on 1 to 23, o on 2 to 24. The four are
 * 1, 0, 0, 0 for one checker of the side, 0, 1, 0, 0 for two, and from three on
 * 0, 0, 1 and the count less three; all 0 where it has none.
 */
uint64_t munchalep_contact_inputs(const int8_t board[26], float *inputs, uint64_t length);
uint64_t munchalep_race_inputs(const int8_t board[26], float *inputs, uint64_t length);

/*
 * The one input that has a place in them, counted from 0, to `out`. Refuses 1,
 * 2, 3, 4, 14. The value is 0.
 */
uint64_t munchalep_contact_input(const int8_t board[26], uint64_t place, float *out);
uint64_t munchalep_race_input(const int8_t board[26], uint64_t place, float *out);

/*
 * A game card is a start record, which holds the key of the start board, and a
 * record for each turn: its dice, and the number of its end in the order of
 * munchalep_list(). A game has at most 1,000 turns, so MUNCHALEP_CARD_BYTES have
 * room for any card.
 */
#define MUNCHALEP_START_BYTES 12
#define MUNCHALEP_TURN_BYTES 5
#define MUNCHALEP_MOST_TURNS 1000
#define MUNCHALEP_CARD_BYTES 5012

/*
 * Begins a card in a buffer of `room` bytes: the start record of the board goes
 * to its first 12 bytes. The value is 12, the card's length. Refuses 1, 2, 3, 4,
 * 6, 5, 19.
 */
uint64_t munchalep_card_begin(const int8_t board[26], uint8_t *buffer, uint64_t room);

/*
 * Adds a turn to the card in the first `length` bytes of a buffer of `room`
 * bytes: its record goes to the 5 bytes after them, and all other bytes stay.
 * The turn is played from the card's last position, and `end` is the board that
 * it leaves, as the other side sees it (sides switched). The value is the card's
 * new length. Refuses 19 where `length` is above `room`, what
 * munchalep_card_read() refuses of the card, with its value, then 22, 25, 7, 12,
 * 19 with the value 0.
 */
uint64_t munchalep_card_add(uint8_t *buffer, uint64_t room, uint64_t length, uint64_t die1,
                            uint64_t die2, const int8_t end[26]);

/*
 * Reads the whole card in `length` bytes. The value is the number of its turns.
 * Refuses 20, 21, 15, 16, 17, 18, 6, 5; then for each turn 22, 23, 24, 25, 26,
 * 11. The value of these is where the refused record begins, its byte offset in
 * the card: 0 for the start record.
 */
uint64_t munchalep_card_read(const uint8_t *card, uint64_t length);

/*
 * The position of a card with a number, to `out`: 0 is the start board, k the
 * board after turn k, as the side sees it that moves next. Refuses what
 * munchalep_card_read() refuses, with its value, then 36 for a number above the
 * number of turns. Else the value is 0.
 */
uint64_t munchalep_card_position(const uint8_t *card, uint64_t length, uint64_t number,
                                 int8_t out[26]);

#ifdef __cplusplus
}
#endif

#endif
