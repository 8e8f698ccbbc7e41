/*
 * How deep the stack of each entry goes. Each call is made on a stack of its own, painted before it;
 * the deepest byte that changed tells how far the call reached. oracle/footprint builds and runs it.
 *
 * A byte that a frame reserves and never writes is not seen, so this is what the calls made here
 * touched, and no bound for all calls: oracle/footprint prints the frames beside it.
 */
#define _XOPEN_SOURCE 700
#include "munchalep.h"

#include <stdio.h>
#include <string.h>
#include <ucontext.h>

#define STACK 8192
#define PAINT 0xA5
#define BOARDS 1000

enum entry {
    NOTHING,
    CHECK,
    SWITCH,
    STEP,
    RESULT,
    LIST,
    LIST_SHORT,
    COUNT,
    END,
    RECOVER,
    KEY,
    BOARD_OF_KEY,
    CONTACT_INPUTS,
    RACE_INPUTS,
    CONTACT_INPUT,
    RACE_INPUT,
    CARD_BEGIN,
    CARD_ADD,
    CARD_READ,
    CARD_POSITION,
    ENTRIES
};

static const char *const names[ENTRIES] = {
    "nothing",        "check",       "switch",        "step",       "result",     "list",
    "list, too short", "count",      "end",           "recover",    "key",        "board_of_key",
    "contact_inputs", "race_inputs", "contact_input", "race_input", "card_begin", "card_add",
    "card_read",      "card_position",
};

static unsigned char stack[STACK];
static uint8_t list[MUNCHALEP_MOST_ENDS * MUNCHALEP_END_BYTES];
static ucontext_t caller, callee;

/* The call that is made on the painted stack. */
static struct {
    enum entry entry;
    int8_t board[26], out[26];
    uint64_t die1, die2;
    int8_t end[26], unswitched[26]; /* the roll's last end */
    struct munchalep_step row[4];
    uint8_t key[10];
    float inputs[MUNCHALEP_CONTACT_INPUTS];
    uint8_t card[17];
} call;

/* What an empty function takes, to be taken off: the frame of make_call() and a return address. */
static uint64_t __attribute__((noinline)) nothing(const int8_t board[26])
{
    __asm__ volatile("" : : "r"(board) : "memory");
    return 0;
}

static void make_call(void)
{
    switch (call.entry) {
    case CHECK: munchalep_check(call.board); break;
    case SWITCH: munchalep_switch(call.board, call.out); break;
    case STEP: munchalep_step(call.board, 25 - call.die2, call.die1, call.out); break;
    case RESULT: munchalep_result(call.board); break;
    case LIST: munchalep_list(call.board, call.die1, call.die2, list, sizeof list); break;
    case LIST_SHORT: munchalep_list(call.board, call.die1, call.die2, list, 26); break;
    case COUNT: munchalep_count(call.board, call.die1, call.die2); break;
    case END: munchalep_end(call.board, call.die1, call.die2, 5, call.out); break;
    case RECOVER: munchalep_recover(call.board, call.unswitched, call.die1, call.die2, call.row, 4); break;
    case KEY: munchalep_key(call.board, call.key); break;
    case BOARD_OF_KEY: munchalep_board_of_key(call.key, call.out); break;
    case CONTACT_INPUTS: munchalep_contact_inputs(call.board, call.inputs, MUNCHALEP_CONTACT_INPUTS); break;
    case RACE_INPUTS: munchalep_race_inputs(call.board, call.inputs, MUNCHALEP_RACE_INPUTS); break;
    case CONTACT_INPUT: munchalep_contact_input(call.board, 100, call.inputs); break;
    case RACE_INPUT: munchalep_race_input(call.board, 100, call.inputs); break;
    case CARD_BEGIN: munchalep_card_begin(call.board, call.card, sizeof call.card); break;
    case CARD_ADD: munchalep_card_add(call.card, sizeof call.card, 12, call.die1, call.die2, call.end); break;
    case CARD_READ: munchalep_card_read(call.card, sizeof call.card); break;
    case CARD_POSITION: munchalep_card_position(call.card, sizeof call.card, 1, call.out); break;
    default: nothing(call.board);
    }
}

/* The last end of the roll, so that looking for its number passes all the others. */
static void find_last_end(void)
{
    uint64_t count = munchalep_value_of(munchalep_count(call.board, call.die1, call.die2));

    munchalep_end(call.board, call.die1, call.die2, count - 1, call.end);
    munchalep_switch(call.end, call.unswitched);
}

/* The bytes of the stack that a call touched, counted from its top. */
static size_t depth(enum entry entry)
{
    size_t untouched = 0;

    memset(stack, PAINT, STACK);
    getcontext(&callee);
    callee.uc_stack.ss_sp = stack;
    callee.uc_stack.ss_size = STACK;
    callee.uc_link = &caller;
    makecontext(&callee, make_call, 0);
    call.entry = entry;
    swapcontext(&caller, &callee);
    while (untouched < STACK && stack[untouched] == PAINT)
        untouched++;
    return STACK - untouched;
}

static uint32_t random_below(uint32_t limit)
{
    static uint64_t state = 1;

    state = state * 6364136223846793005u + 1442695040888963407u;
    return (uint32_t)((state >> 33) % limit);
}

/* x and o anywhere, at times on the bar, at times all of x at home; few boards are refused. */
static void random_board(int8_t board[26])
{
    uint32_t highest = random_below(4) ? 24 : 6, i;

    memset(board, 0, 26);
    if (!random_below(3))
        board[25] = (int8_t)(1 + random_below(3));
    for (i = random_below(13); i > 0; i--)
        board[1 + random_below(highest)]++;
    for (i = 1 + random_below(15); i > 0; i--) {
        uint32_t point = random_below(25);

        if (board[point] <= 0)
            board[point]--;
    }
}

/* The board with the most ends that was found: double 1, 2,226 ends. */
static void heavy_board(int8_t board[26])
{
    static const int points[] = {24, 22, 21, 19, 18, 16, 15, 13, 12, 10, 9, 7, 6, 4, 3};
    size_t i;

    memset(board, 0, 26);
    for (i = 0; i < sizeof points / sizeof points[0]; i++)
        board[points[i]] = 1;
    board[0] = -1;
}

int main(void)
{
    size_t deepest[ENTRIES] = {0};
    int n, entry;

    for (n = 0; n < BOARDS; n++) {
        if (n == 0)
            heavy_board(call.board);
        else
            random_board(call.board);
        for (call.die1 = 1; call.die1 <= 6; call.die1++)
            for (call.die2 = 1; call.die2 <= 6; call.die2++) {
                find_last_end();
                for (entry = 0; entry < ENTRIES; entry++) {
                    size_t reached = depth((enum entry)entry);

                    if (reached > deepest[entry])
                        deepest[entry] = reached;
                }
            }
    }
    /* The return address of a call is its own, so it is counted. */
    for (entry = 1; entry < ENTRIES; entry++)
        printf("%-16s %5u bytes\n", names[entry],
               (unsigned)(deepest[entry] - deepest[NOTHING] + sizeof(void *)));
    return 0;
}
