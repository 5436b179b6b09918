/* Calls each exported function on a stack of its own that was painted before, and fails where more of it was
 * touched than the header says, or less. Each is called on inputs that go deepest: the frames are of fixed size,
 * and the search goes one level deeper for each turn that it takes. To be linked statically, so that no function is
 * looked up while the stack is measured. GRANTED bytes more may be touched: by memcpy, memmove and memset, which the
 * header leaves out, and by an answer that is too long for registers. GRANTED bytes less are no fault either. */
#include <stdio.h>
#include <stdlib.h>
#include <string.h>
#include <ucontext.h>

#include "slopeboard.h"

#define PAINT 0xC3
#define STACK_BYTES 262144
#define GRANTED 64
#define TURNS SLOPEBOARD_MOST_TURNS

static uint8_t stack[STACK_BYTES] __attribute__((aligned(64)));
static ucontext_t here, there;

static uint8_t sheet[SLOPEBOARD_MOST_SHEET_BYTES], small[SLOPEBOARD_MOST_SHEET_BYTES], hall[SLOPEBOARD_MOST_SHEET_BYTES];
static uint8_t single[SLOPEBOARD_MOST_SHEET_BYTES], few[SLOPEBOARD_MOST_SHEET_BYTES], board[SLOPEBOARD_MOST_BOARD_BYTES], kept[SLOPEBOARD_MOST_SHEET_BYTES];
static size_t sheet_len, small_len, hall_len, single_len, few_len, board_len, kept_len;
static uint16_t table[SLOPEBOARD_MOST_NUMBERS], delays[TURNS], prices[SLOPEBOARD_MOST_SLOPES + TURNS], minutes[SLOPEBOARD_MINUTES];
static uint8_t bytes[SLOPEBOARD_MOST_SHEET_BYTES + SLOPEBOARD_MOST_TEXT_BYTES];
static uint16_t numbers[SLOPEBOARD_MOST_NUMBERS];
static slopeboard_standing list[SLOPEBOARD_MOST_GROOMERS];
static int refusal;

static void nothing(void) { refusal = 0; }
static void call_read(void) { refusal = slopeboard_read(sheet, sheet_len, numbers, SLOPEBOARD_MOST_NUMBERS).refusal; }
static void call_read_short(void) { refusal = slopeboard_read_short(small, small_len, numbers, SLOPEBOARD_MOST_NUMBERS).refusal; }
static void call_write(void) { refusal = slopeboard_write(16, 120, table, SLOPEBOARD_MOST_NUMBERS, bytes, sizeof bytes).refusal; }
static void call_plan(void) { refusal = slopeboard_plan(sheet, sheet_len, bytes, sizeof bytes).refusal; }
static void call_open(void) { refusal = slopeboard_open(board, board_len); }
static void call_steps(void) { refusal = slopeboard_steps(board, board_len).length == 0; }
static void call_count(void) { refusal = slopeboard_count(board, board_len).refusal; }
static void call_is_chosen(void) { refusal = slopeboard_is_chosen(board, board_len, TURNS); }
static void call_check(void) { refusal = slopeboard_check(sheet, sheet_len, board, board_len).refusal; }
static void call_list(void) { refusal = slopeboard_list(sheet, sheet_len, bytes, sizeof bytes).refusal; }
static void call_assign(void) { refusal = slopeboard_assign(sheet, sheet_len, numbers, SLOPEBOARD_MOST_NUMBERS).refusal; }
static void call_best(void) { refusal = slopeboard_best(single, single_len, bytes, sizeof bytes).refusal; }
static void call_improve(void) { refusal = slopeboard_improve(few, few_len, 1000000, bytes, sizeof bytes).refusal; }
static void call_draw(void) { refusal = slopeboard_draw(1, 16, 120, TURNS, bytes, sizeof bytes).refusal; }
static void call_keep(void) { refusal = slopeboard_keep(sheet, sheet_len, bytes, sizeof bytes).refusal; }
static void call_restore(void) { refusal = slopeboard_restore(kept, kept_len, bytes, sizeof bytes).refusal; }
static void call_play(void) { refusal = slopeboard_play(sheet, sheet_len, board, board_len, delays, TURNS, list, SLOPEBOARD_MOST_GROOMERS).refusal; }
static void call_limit(void) { refusal = slopeboard_limit(sheet, sheet_len, prices, SLOPEBOARD_MOST_SLOPES + TURNS).refusal; }
static void call_refine(void) { refusal = slopeboard_refine(sheet, sheet_len, 20, bytes, sizeof bytes, numbers, SLOPEBOARD_MOST_NUMBERS).refusal; }
static void call_charge_limit(void) { refusal = slopeboard_charge_limit(hall, hall_len, minutes, SLOPEBOARD_MINUTES).refusal; }
static void call_charge_refine(void) { refusal = slopeboard_charge_refine(hall, hall_len, 20, bytes, sizeof bytes, numbers, SLOPEBOARD_MOST_NUMBERS).refusal; }
static void call_charge(void) { refusal = slopeboard_charge(hall, hall_len, bytes, sizeof bytes).refusal; }

/* How many bytes of the painted stack a call touches. */
static size_t touched(void (*call)(void)) {
    memset(stack, PAINT, sizeof stack);
    getcontext(&there);
    there.uc_stack.ss_sp = stack;
    there.uc_stack.ss_size = sizeof stack;
    there.uc_link = &here;
    makecontext(&there, call, 0);
    swapcontext(&here, &there);
    size_t place = 0;
    while (place < sizeof stack && stack[place] == PAINT) place++;
    return sizeof stack - place;
}

/* An accepted sheet of so many turns, drawn from a seed. */
static size_t drawn(uint64_t seed, uint32_t slopes, uint32_t turns, uint8_t *place) {
    return slopeboard_draw(seed, 16, slopes, turns, place, SLOPEBOARD_MOST_SHEET_BYTES).bytes;
}

/* As many turns as are searched, no two of which conflict: the search first takes all of them. */
static size_t all_apart(uint8_t *place) {
    uint16_t rows[SLOPEBOARD_NUMBERS_PER_TURN * SLOPEBOARD_MOST_SEARCHED_TURNS];
    for (int turn = 0; turn < SLOPEBOARD_MOST_SEARCHED_TURNS; turn++) {
        uint16_t row[] = {turn + 1, turn % 16 + 1, turn / 16 * 100, 30, 7, 0};
        memcpy(rows + SLOPEBOARD_NUMBERS_PER_TURN * turn, row, sizeof row);
    }
    size_t count = sizeof rows / sizeof rows[0];
    return slopeboard_write(16, SLOPEBOARD_MOST_SEARCHED_TURNS, rows, count, place, SLOPEBOARD_MOST_SHEET_BYTES).bytes;
}

static void prepare(uint64_t seed) {
    sheet_len = drawn(seed, 120, TURNS, sheet);
    small_len = drawn(seed, 120, SLOPEBOARD_MOST_SHORT_TURNS, small);
    /* The search goes deepest on turns that are all apart, the planner before it on drawn ones. */
    few_len = seed % 2 == 0 ? all_apart(few) : drawn(seed, 120, SLOPEBOARD_MOST_SEARCHED_TURNS, few);
    slopeboard_read(sheet, sheet_len, table, SLOPEBOARD_MOST_NUMBERS);
    for (int place = 0; place < SLOPEBOARD_MOST_SLOPES + TURNS; place++) prices[place] = seed * 977 * place % 1000;
    for (int place = 0; place < SLOPEBOARD_MINUTES; place++) minutes[place] = seed * 977 * place % 300;
    for (int turn = 0; turn < TURNS; turn++) {
        delays[turn] = (seed * 7 + turn) % (SLOPEBOARD_MOST_DELAY + 1);
        table[SLOPEBOARD_NUMBERS_PER_TURN * turn + 5] = turn % (SLOPEBOARD_MOST_DRIVER + 1);
    }
    /* Every other sheet names drivers. */
    if (seed % 2 == 0) sheet_len = slopeboard_write(16, 120, table, SLOPEBOARD_MOST_NUMBERS, sheet, sizeof sheet).bytes;
    board_len = slopeboard_plan(sheet, sheet_len, board, sizeof board).bytes;
    kept_len = slopeboard_keep(sheet, sheet_len, kept, sizeof kept).bytes;
    /* A slope for each turn; and as windows of a hall, whose draws are the groomers. */
    slopeboard_read(sheet, sheet_len, table, SLOPEBOARD_MOST_NUMBERS);
    for (int turn = 0; turn < TURNS; turn++) {
        table[SLOPEBOARD_NUMBERS_PER_TURN * turn] = turn % SLOPEBOARD_MOST_VEHICLES + 1;
        table[SLOPEBOARD_NUMBERS_PER_TURN * turn + 5] = 0;
    }
    hall_len = slopeboard_write(16, SLOPEBOARD_MOST_VEHICLES, table, SLOPEBOARD_MOST_NUMBERS, hall, sizeof hall).bytes;
    memcpy(hall, "GRE", 3);
    for (int turn = 0; turn < SLOPEBOARD_MOST_SLOPES; turn++) table[SLOPEBOARD_NUMBERS_PER_TURN * turn] = turn + 1;
    single_len = slopeboard_write(16, 120, table, SLOPEBOARD_NUMBERS_PER_TURN * SLOPEBOARD_MOST_SLOPES, single, sizeof single).bytes;
    slopeboard_read(sheet, sheet_len, table, SLOPEBOARD_MOST_NUMBERS);
}

struct entry {
    const char *name;
    void (*call)(void);
    size_t said;
    size_t unused; /* of what is said, by any input */
    size_t most;
};

#define ENTRY_LESS(lower, upper, unused) {#lower, call_##lower, SLOPEBOARD_STACK_##upper, unused, 0}
#define ENTRY(lower, upper) ENTRY_LESS(lower, upper, 0)

/* The rounds of shifts and halls are compiled as one function. What goes deepest below it, through the frame of
 * shift_look's put_orders, is for shifts alone: a hall's rounds leave as much unused as this frame has. */
#define ONLY_FOR_SHIFTS 1696

int main(void) {
    struct entry entries[] = {
        ENTRY(read, READ), ENTRY(read_short, READ_SHORT), ENTRY(write, WRITE), ENTRY(plan, PLAN), ENTRY(open, OPEN),
        ENTRY(steps, STEPS), ENTRY(count, COUNT), ENTRY(is_chosen, IS_CHOSEN), ENTRY(check, CHECK), ENTRY(list, LIST),
        ENTRY(assign, ASSIGN), ENTRY(best, BEST), ENTRY(improve, IMPROVE), ENTRY(draw, DRAW), ENTRY(keep, KEEP),
        ENTRY(restore, RESTORE), ENTRY(play, PLAY), ENTRY(charge, CHARGE), ENTRY(limit, LIMIT),
        ENTRY(refine, REFINE), ENTRY(charge_limit, CHARGE_LIMIT),
        ENTRY_LESS(charge_refine, CHARGE_REFINE, ONLY_FOR_SHIFTS),
    };
    size_t count = sizeof entries / sizeof entries[0];
    int faults = 0;
    /* What a call through the other context costs by itself. */
    size_t empty = touched(nothing);
    for (uint64_t seed = 1; seed <= 20; seed++) {
        prepare(seed);
        for (size_t place = 0; place < count; place++) {
            struct entry *entry = &entries[place];
            size_t bytes_touched = touched(entry->call) - empty;
            if (refusal != 0) {
                printf("tests/stack.c: %s refused its sheet of seed %u\n", entry->name, (unsigned)seed);
                faults++;
            }
            if (bytes_touched > entry->most) entry->most = bytes_touched;
        }
    }
    for (size_t place = 0; place < count; place++) {
        struct entry *entry = &entries[place];
        int more = entry->most > entry->said + GRANTED;
        int less = entry->most + entry->unused + GRANTED < entry->said;
        const char *verdict = more ? ": TOO LOW" : less ? ": NOT REACHED" : "";
        printf("%-13s touched %6zu, said %6zu%s\n", entry->name, entry->most, entry->said, verdict);
        faults += more || less;
    }
    return faults != 0;
}
