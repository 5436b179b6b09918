/* Calls every exported function through the header, each on an input that it takes and on one that it refuses,
 * and compares answers and lent buffers with what documents and hand give. The layouts that the header promises
 * are compared when this file is compiled. Prints a line for each difference; silent and 0 if there is none. */
#include <stdio.h>
#include <string.h>

#include "slopeboard.h"

#define LAID_OUT(type, size) _Static_assert(sizeof(type) == (size), #type " has another size")
#define STANDS_AT(type, field, place) _Static_assert(offsetof(type, field) == (place), #type "." #field " stands elsewhere")

LAID_OUT(slopeboard_read_answer, 8);
STANDS_AT(slopeboard_read_answer, refusal, 0);
STANDS_AT(slopeboard_read_answer, groomers, 2);
STANDS_AT(slopeboard_read_answer, slopes, 4);
STANDS_AT(slopeboard_read_answer, turns, 6);
LAID_OUT(slopeboard_write_answer, 8);
STANDS_AT(slopeboard_write_answer, refusal, 0);
STANDS_AT(slopeboard_write_answer, bytes, 4);
LAID_OUT(slopeboard_plan_answer, 8);
LAID_OUT(slopeboard_list_answer, 8);
LAID_OUT(slopeboard_part, 16);
STANDS_AT(slopeboard_part, start, 0);
STANDS_AT(slopeboard_part, length, 8);
LAID_OUT(slopeboard_count_answer, 8);
STANDS_AT(slopeboard_count_answer, refusal, 0);
STANDS_AT(slopeboard_count_answer, turns, 4);
LAID_OUT(slopeboard_check_answer, 16);
STANDS_AT(slopeboard_check_answer, refusal, 0);
STANDS_AT(slopeboard_check_answer, tally, 4);
STANDS_AT(slopeboard_check_answer, worth, 8);
STANDS_AT(slopeboard_check_answer, ceiling, 12);
LAID_OUT(slopeboard_assign_answer, 4);
STANDS_AT(slopeboard_assign_answer, refusal, 0);
STANDS_AT(slopeboard_assign_answer, groomers, 2);
LAID_OUT(slopeboard_best_answer, 8);
STANDS_AT(slopeboard_best_answer, refusal, 0);
STANDS_AT(slopeboard_best_answer, worth, 4);
LAID_OUT(slopeboard_improve_answer, 24);
STANDS_AT(slopeboard_improve_answer, refusal, 0);
STANDS_AT(slopeboard_improve_answer, whole, 1);
STANDS_AT(slopeboard_improve_answer, worth, 4);
STANDS_AT(slopeboard_improve_answer, above, 8);
STANDS_AT(slopeboard_improve_answer, visits, 16);
LAID_OUT(slopeboard_standing, 8);
STANDS_AT(slopeboard_standing, working, 0);
STANDS_AT(slopeboard_standing, driving, 2);
STANDS_AT(slopeboard_standing, standing, 4);
STANDS_AT(slopeboard_standing, turn, 6);
LAID_OUT(slopeboard_play_answer, 4);
STANDS_AT(slopeboard_play_answer, refusal, 0);
STANDS_AT(slopeboard_play_answer, groomers, 2);
LAID_OUT(slopeboard_charge_answer, 8);
STANDS_AT(slopeboard_charge_answer, refusal, 0);
STANDS_AT(slopeboard_charge_answer, worth, 4);
LAID_OUT(slopeboard_limit_answer, 8);
STANDS_AT(slopeboard_limit_answer, refusal, 0);
STANDS_AT(slopeboard_limit_answer, limit, 4);
LAID_OUT(slopeboard_refine_answer, 20);
STANDS_AT(slopeboard_refine_answer, refusal, 0);
STANDS_AT(slopeboard_refine_answer, bytes, 4);
STANDS_AT(slopeboard_refine_answer, worth, 8);
STANDS_AT(slopeboard_refine_answer, limit, 12);
STANDS_AT(slopeboard_refine_answer, rounds, 16);
LAID_OUT(slopeboard_charge_refine_answer, 16);
STANDS_AT(slopeboard_charge_refine_answer, refusal, 0);
STANDS_AT(slopeboard_charge_refine_answer, worth, 4);
STANDS_AT(slopeboard_charge_refine_answer, limit, 8);
STANDS_AT(slopeboard_charge_refine_answer, rounds, 12);

static int differences;

#define EXPECT(holds) \
    do { \
        if (!(holds)) { \
            printf("tests/abi.c:%d: not so: %s\n", __LINE__, #holds); \
            differences++; \
        } \
    } while (0)

/* Whether the first bytes of a buffer are these, and the one behind them is as it was. */
#define HOLDS(buffer, bytes) (memcmp(buffer, bytes, sizeof bytes) == 0 && (buffer)[sizeof bytes] == LENT)

/* What lent buffers hold before each call. */
#define LENT 0x5A

static uint8_t lent[SLOPEBOARD_MOST_SHEET_BYTES + 1];

static uint8_t *fresh(void) {
    return memset(lent, LENT, sizeof lent);
}

/* Whether no byte of it has changed. */
static int untouched(void) {
    for (size_t place = 0; place < sizeof lent; place++) {
        if (lent[place] != LENT) return 0;
    }
    return 1;
}

/* The worked shift: two groomers, three slopes, four turns. */
static const uint8_t sheet[] = {
    0x47, 0x52, 0x4D, 2, 3, 0, 4,
    0x1F, 1, 1, 0, 0, 0, 60, 0, 100,
    0x15, 2, 0, 30, 0, 150,
    0x1F, 1, 2, 0, 0, 0, 120, 0, 80,
    0x1D, 3, 0, 120, 0, 60, 0, 90,
};

static const uint16_t table[24] = {
    1, 1, 0,   60,  100, 0,
    2, 1, 30,  60,  150, 0,
    1, 2, 0,   120, 80,  0,
    3, 2, 120, 60,  90,  0,
};

/* Its board: steps on turns 0, 1 and 3, of which 1 and 3 are chosen. */
static const uint8_t board[] = {
    0x47, 0x52, 0x42, 0, 4, 0, 3, 0, 0, 0, 240, 0, 0, 0, 240, 0x0A, 0, 0, 0, 100, 0, 1, 0, 50, 0, 3, 0, 90,
};

static void reading(void) {
    uint16_t numbers[25];
    memset(numbers, LENT, sizeof numbers);
    slopeboard_read_answer read = slopeboard_read(sheet, sizeof sheet, numbers, 24);
    EXPECT(read.refusal == 0 && read.groomers == 2 && read.slopes == 3 && read.turns == 4);
    EXPECT(memcmp(numbers, table, sizeof table) == 0 && numbers[24] == LENT * 257);
    memset(numbers, LENT, sizeof numbers);
    read = slopeboard_read(NULL, 0, numbers, 24);
    EXPECT(read.refusal == SLOPEBOARD_TRUNCATED && read.groomers == 0 && read.slopes == 0 && read.turns == 0);
    EXPECT(numbers[0] == LENT * 257);

    read = slopeboard_read_short(sheet, sizeof sheet, numbers, 24);
    EXPECT(read.refusal == 0 && read.groomers == 2 && read.slopes == 3 && read.turns == 4);
    EXPECT(memcmp(numbers, table, sizeof table) == 0);
    const uint8_t many[] = {0x47, 0x52, 0x4D, 2, 3, 0, 97};
    read = slopeboard_read_short(many, sizeof many, NULL, 0);
    EXPECT(read.refusal == SLOPEBOARD_TOO_MANY_FOR_SHORT && read.groomers == 0);
}

/* The shift as it is written: its turns 0, 2, 1, 3. */
static void writing(void) {
    const uint8_t written[] = {
        0x47, 0x52, 0x4D, 2, 3, 0, 4,
        0x1F, 1, 1, 0, 0, 0, 60, 0, 100,
        0x1A, 2, 0, 120, 0, 80,
        0x1F, 2, 1, 0, 30, 0, 60, 0, 150,
        0x17, 3, 2, 0, 120, 0, 90,
    };
    slopeboard_write_answer answer = slopeboard_write(2, 3, table, 24, fresh(), sizeof lent);
    EXPECT(answer.refusal == 0 && answer.bytes == sizeof written && HOLDS(lent, written));
    answer = slopeboard_write(2, 3, table, 23, fresh(), sizeof lent);
    EXPECT(answer.refusal == SLOPEBOARD_PARTIAL_TURN && answer.bytes == 0 && untouched());
}

static void planning(void) {
    slopeboard_plan_answer planned = slopeboard_plan(sheet, sizeof sheet, fresh(), SLOPEBOARD_BOARD_BYTES(4));
    EXPECT(planned.refusal == 0 && planned.bytes == sizeof board && HOLDS(lent, board));
    planned = slopeboard_plan(sheet, sizeof sheet, fresh(), SLOPEBOARD_BOARD_BYTES(4) - 1);
    EXPECT(planned.refusal == SLOPEBOARD_BUFFER_TOO_SMALL && planned.bytes == 0 && untouched());
}

static void opening(void) {
    EXPECT(slopeboard_open(board, sizeof board) == 0);
    EXPECT(slopeboard_open(sheet, sizeof sheet) == SLOPEBOARD_MALFORMED_BOARD);
    slopeboard_part steps = slopeboard_steps(board, sizeof board);
    EXPECT(steps.start == 16 && steps.length == 12);
    steps = slopeboard_steps(sheet, sizeof sheet);
    EXPECT(steps.start == 0 && steps.length == 0);
    slopeboard_count_answer count = slopeboard_count(board, sizeof board);
    EXPECT(count.refusal == 0 && count.turns == 2);
    count = slopeboard_count(sheet, sizeof sheet);
    EXPECT(count.refusal == SLOPEBOARD_MALFORMED_BOARD && count.turns == 0);
    EXPECT(slopeboard_is_chosen(board, sizeof board, 1) && !slopeboard_is_chosen(board, sizeof board, 2));
    EXPECT(!slopeboard_is_chosen(board, sizeof board, 4) && !slopeboard_is_chosen(sheet, sizeof sheet, 1));
}

static void checking(void) {
    slopeboard_check_answer checked = slopeboard_check(sheet, sizeof sheet, board, sizeof board);
    EXPECT(checked.refusal == 0 && checked.tally == 240 && checked.worth == 240 && checked.ceiling == 340);
    uint8_t other[sizeof board];
    memcpy(other, board, sizeof board);
    other[14]--;
    checked = slopeboard_check(sheet, sizeof sheet, other, sizeof other);
    EXPECT(checked.refusal == SLOPEBOARD_WRONG_SUMS && checked.tally == 0 && checked.worth == 0 && checked.ceiling == 0);
}

static void listing(void) {
    static const char text[] =
        "groomer 1\n30-90 slope 2 worth 150\ngroomer 2\n120-180 slope 3 worth 90\nworth 240 tally 240 ceiling 340\n";
    slopeboard_list_answer listed = slopeboard_list(sheet, sizeof sheet, fresh(), SLOPEBOARD_MOST_TEXT_BYTES);
    EXPECT(listed.refusal == 0 && listed.bytes == strlen(text) && memcmp(lent, text, strlen(text)) == 0);
    EXPECT(lent[strlen(text)] == LENT);
    listed = slopeboard_list(sheet, sizeof sheet, fresh(), strlen(text) - 1);
    EXPECT(listed.refusal == SLOPEBOARD_BUFFER_TOO_SMALL && listed.bytes == 0 && untouched());
}

static void assigning(void) {
    uint16_t places[5] = {LENT, LENT, LENT, LENT, LENT};
    slopeboard_assign_answer assigned = slopeboard_assign(sheet, sizeof sheet, places, 3);
    EXPECT(assigned.refusal == SLOPEBOARD_BUFFER_TOO_SMALL && assigned.groomers == 0 && places[0] == LENT);
    assigned = slopeboard_assign(sheet, sizeof sheet, places, 4);
    EXPECT(assigned.refusal == 0 && assigned.groomers == 3);
    EXPECT(places[0] == 1 && places[1] == 3 && places[2] == 2 && places[3] == 1 && places[4] == LENT);
}

/* Two turns of one groomer that overlap, on two slopes: the richer one is best. */
static void best(void) {
    const uint8_t two[] = {
        0x47, 0x52, 0x4D, 1, 2, 0, 2, 0x1F, 1, 1, 0, 0, 0, 60, 0, 100, 0x15, 2, 0, 30, 0, 150,
    };
    slopeboard_best_answer found = slopeboard_best(two, sizeof two, fresh(), 1);
    EXPECT(found.refusal == 0 && found.worth == 150 && lent[0] == 2 && lent[1] == LENT);
    found = slopeboard_best(sheet, sizeof sheet, fresh(), 1);
    EXPECT(found.refusal == SLOPEBOARD_NOT_SINGLE_TURNS && found.worth == 0 && untouched());
}

/* Of the shift's turns 0 conflicts with 1 and 2, and 2 with 3: 11 visits go through all sets. */
static void improving(void) {
    slopeboard_improve_answer improved = slopeboard_improve(sheet, sizeof sheet, 1000, fresh(), 1);
    EXPECT(improved.refusal == 0 && improved.whole && improved.worth == 240 && improved.above == 100);
    EXPECT(improved.visits == 11 && lent[0] == 0x0A && lent[1] == LENT);
    improved = slopeboard_improve(sheet, sizeof sheet, 10, fresh(), 1);
    EXPECT(improved.refusal == 0 && !improved.whole && improved.visits == 10 && improved.worth == 240);
    uint8_t equal[7 + 9 + 64] = {0x47, 0x52, 0x4D, 1, 1, 0, 65, 0x1F, 1, 1, 0, 0, 0, 60, 0, 100};
    improved = slopeboard_improve(equal, sizeof equal, 1000, fresh(), sizeof lent);
    EXPECT(improved.refusal == SLOPEBOARD_TOO_MANY_TO_SEARCH && !improved.whole && improved.worth == 0);
    EXPECT(improved.above == 0 && improved.visits == 0 && untouched());
}

/* The first five numbers from seed 1 are 16807, 282475249, 1622650073, 984943658 and 1144108930. */
static void drawing(void) {
    const uint16_t start = 1622650073 % 841, worth = 1 + 1144108930 % 60000;
    const uint8_t drawn[] = {
        0x47, 0x52, 0x4D, 1, 1, 0, 1, 0x1F, 1, 1, start >> 8, start & 255, 0, 45, worth >> 8, worth & 255,
    };
    slopeboard_write_answer answer = slopeboard_draw(1, 1, 1, 1, fresh(), sizeof lent);
    EXPECT(answer.refusal == 0 && answer.bytes == sizeof drawn && HOLDS(lent, drawn));
    answer = slopeboard_draw(0, 1, 1, 1, fresh(), sizeof lent);
    EXPECT(answer.refusal == SLOPEBOARD_BAD_SEED && answer.bytes == 0 && untouched());
}

static const uint8_t kept[] = {
    0x47, 0x52, 0x43, 2, 3, 0, 4,
    0x1F, 0x15, 0x1F, 0x1D,
    1, 2, 1, 3,
    1, 2,
    0, 0, 0, 30, 0, 0, 0, 120,
    0, 60, 0, 120, 0, 60,
    0, 100, 0, 150, 0, 80, 0, 90,
};

static void keeping(void) {
    slopeboard_write_answer answer = slopeboard_keep(sheet, sizeof sheet, fresh(), sizeof sheet);
    EXPECT(answer.refusal == 0 && answer.bytes == sizeof kept && HOLDS(lent, kept));
    answer = slopeboard_keep(sheet, sizeof sheet, fresh(), sizeof sheet - 1);
    EXPECT(answer.refusal == SLOPEBOARD_BUFFER_TOO_SMALL && answer.bytes == 0 && untouched());
    answer = slopeboard_restore(kept, sizeof kept, fresh(), sizeof kept);
    EXPECT(answer.refusal == 0 && answer.bytes == sizeof sheet && HOLDS(lent, sheet));
    answer = slopeboard_restore(sheet, sizeof sheet, fresh(), sizeof lent);
    EXPECT(answer.refusal == SLOPEBOARD_BAD_MAGIC && answer.bytes == 0 && untouched());
}

static void playing(void) {
    const slopeboard_standing before = {LENT, LENT, LENT, LENT};
    slopeboard_standing list[3] = {before, before, before};
    const uint16_t delays[4] = {0, 15, 0, 0};
    slopeboard_play_answer played = slopeboard_play(sheet, sizeof sheet, board, sizeof board, delays, 3, list, 3);
    EXPECT(played.refusal == SLOPEBOARD_BAD_DELAYS && played.groomers == 0 && list[0].working == LENT);
    played = slopeboard_play(sheet, sizeof sheet, board, sizeof board, delays, 4, list, 3);
    EXPECT(played.refusal == 0 && played.groomers == 2);
    EXPECT(list[0].working == 75 && list[0].driving == 10 && list[0].standing == 875);
    EXPECT(list[1].working == 60 && list[1].driving == 10 && list[1].standing == 890);
    EXPECT(list[0].turn == SLOPEBOARD_NO_TURN && list[1].turn == SLOPEBOARD_NO_TURN);
    EXPECT(memcmp(&list[2], &before, sizeof before) == 0);
}

/* One unit, which each of three windows draws: two in the first minute, and the second vehicle's other one. */
static void charging(void) {
    uint8_t hall[] = {
        0x47, 0x52, 0x45, 1, 2, 0, 3, 0x1F, 1, 1, 0, 0, 0, 1, 0, 1, 0x11, 2, 0, 2, 0x04, 0, 1,
    };
    slopeboard_charge_answer charged = slopeboard_charge(hall, sizeof hall, fresh(), 1);
    EXPECT(charged.refusal == 0 && charged.worth == 2 && lent[0] == 2 && lent[1] == LENT);
    hall[9] = 2;
    charged = slopeboard_charge(hall, sizeof hall, fresh(), 1);
    EXPECT(charged.refusal == SLOPEBOARD_BAD_DRAW && charged.worth == 0 && untouched());
}

/* Seven prices: of three slopes and four turns. */
static void limiting(void) {
    uint16_t prices[8] = {0};
    slopeboard_limit_answer answer = slopeboard_limit(sheet, sizeof sheet, prices, 7);
    EXPECT(answer.refusal == 0 && answer.limit == 240);
    prices[0] = 60, prices[1] = 40, prices[2] = 10;
    answer = slopeboard_limit(sheet, sizeof sheet, prices, 7);
    EXPECT(answer.refusal == 0 && answer.limit == 300);
    answer = slopeboard_limit(sheet, sizeof sheet, prices, 8);
    EXPECT(answer.refusal == SLOPEBOARD_BAD_PRICES && answer.limit == 0);
}

/* Worth and limit meet at once on the worked shift. Where two groomers have a turn on one slope, worth 100 and 60,
 * its price goes up by 25, 23 and 21, and at 69 the limit is 69 and 31. */
static void refining(void) {
    uint16_t prices[8];
    memset(prices, LENT, sizeof prices);
    slopeboard_refine_answer refined = slopeboard_refine(sheet, sizeof sheet, 9, fresh(), SLOPEBOARD_BOARD_BYTES(4), prices, 7);
    EXPECT(refined.refusal == 0 && refined.bytes == sizeof board && HOLDS(lent, board));
    EXPECT(refined.worth == 240 && refined.limit == 240 && refined.rounds == 0);
    EXPECT(prices[0] == 0 && prices[6] == 0 && prices[7] == LENT * 257);
    const uint8_t two[] = {
        0x47, 0x52, 0x4D, 2, 1, 0, 2, 0x1F, 1, 1, 0, 0, 0, 60, 0, 100, 0x12, 2, 0, 60,
    };
    refined = slopeboard_refine(two, sizeof two, 2, fresh(), SLOPEBOARD_BOARD_BYTES(2), prices, 3);
    EXPECT(refined.refusal == 0 && refined.worth == 100 && refined.limit == 112 && refined.rounds == 2);
    EXPECT(prices[0] == 48 && prices[1] == 0 && prices[2] == 0);
    refined = slopeboard_refine(two, sizeof two, UINT32_MAX, fresh(), SLOPEBOARD_BOARD_BYTES(2), prices, 3);
    EXPECT(refined.refusal == 0 && refined.worth == 100 && refined.limit == 100 && refined.rounds == 3);
    EXPECT(prices[0] == 69 && lent[15] == 1);
    memset(prices, LENT, sizeof prices);
    refined = slopeboard_refine(sheet, sizeof sheet, 9, fresh(), sizeof lent, prices, 6);
    EXPECT(refined.refusal == SLOPEBOARD_BUFFER_TOO_SMALL && refined.bytes == 0 && refined.worth == 0);
    EXPECT(refined.limit == 0 && refined.rounds == 0 && untouched() && prices[0] == LENT * 257);
    refined = slopeboard_refine(sheet, sizeof sheet, 9, fresh(), SLOPEBOARD_BOARD_BYTES(4) - 1, prices, 7);
    EXPECT(refined.refusal == SLOPEBOARD_BUFFER_TOO_SMALL && untouched() && prices[0] == LENT * 257);
}

/* Twelve units in one minute: two windows of draw 6 and twelve of draw 1, all of worth 1. With the third round the
 * minute's price is 3, and the large windows pay all that they are worth. */
static void pricing_the_hall(void) {
    uint8_t hall[7 + 9 + 2 + 3 + 11 * 2] = {
        0x47, 0x52, 0x45, 12, 14, 0, 14, 0x1F, 1, 6, 500 >> 8, 500 & 255, 0, 1, 0, 1, 0x01, 2, 0x03, 3, 1,
    };
    for (int window = 3; window < 14; window++) {
        hall[15 + 2 * window] = 0x01;
        hall[16 + 2 * window] = window + 1;
    }
    uint16_t prices[SLOPEBOARD_MINUTES + 1] = {0};
    slopeboard_limit_answer limit = slopeboard_charge_limit(hall, sizeof hall, prices, SLOPEBOARD_MINUTES);
    EXPECT(limit.refusal == 0 && limit.limit == 14);
    prices[500] = 16;
    limit = slopeboard_charge_limit(hall, sizeof hall, prices, SLOPEBOARD_MINUTES);
    EXPECT(limit.refusal == 0 && limit.limit == 12);
    limit = slopeboard_charge_limit(hall, sizeof hall, prices, SLOPEBOARD_MINUTES + 1);
    EXPECT(limit.refusal == SLOPEBOARD_BAD_PRICES && limit.limit == 0);

    memset(prices, LENT, sizeof prices);
    slopeboard_charge_refine_answer refined = slopeboard_charge_refine(hall, sizeof hall, 2, fresh(), 2, prices, SLOPEBOARD_MINUTES);
    EXPECT(refined.refusal == 0 && refined.worth == 2 && refined.limit == 14 && refined.rounds == 2);
    EXPECT(lent[0] == 0x03 && lent[1] == 0 && lent[2] == LENT);
    refined = slopeboard_charge_refine(hall, sizeof hall, 3, fresh(), 2, prices, SLOPEBOARD_MINUTES);
    EXPECT(refined.refusal == 0 && refined.worth == 12 && refined.limit == 14 && refined.rounds == 3);
    EXPECT(lent[0] == 0xFC && lent[1] == 0x3F && lent[2] == LENT);
    EXPECT(prices[500] == 0 && prices[SLOPEBOARD_MINUTES] == LENT * 257);
    memset(prices, LENT, sizeof prices);
    refined = slopeboard_charge_refine(hall, sizeof hall, 3, fresh(), 2, prices, SLOPEBOARD_MINUTES - 1);
    EXPECT(refined.refusal == SLOPEBOARD_BUFFER_TOO_SMALL && refined.worth == 0 && refined.limit == 0);
    EXPECT(refined.rounds == 0 && untouched() && prices[0] == LENT * 257);
    refined = slopeboard_charge_refine(hall, sizeof hall, 3, fresh(), 1, prices, SLOPEBOARD_MINUTES);
    EXPECT(refined.refusal == SLOPEBOARD_BUFFER_TOO_SMALL && untouched() && prices[0] == LENT * 257);
}

int main(void) {
    reading();
    writing();
    planning();
    opening();
    checking();
    listing();
    assigning();
    best();
    improving();
    drawing();
    keeping();
    playing();
    charging();
    limiting();
    refining();
    pricing_the_hall();
    return differences != 0;
}
