/* Takes a small shift through the whole library, a function for each part of it, and prints what comes back: the
 * board, the listing, how many groomers do all turns, limits and better boards by prices, the search, the best worth
 * of one turn a slope, the shift played, the kept form, a charging hall and a drawn sheet. examples/expected has what
 * it prints, as the independent reference version works it out.
 *
 * With the library in crates/slopeboard_c/out (rt lib in crates/slopeboard_c), at the top of the repository:
 *
 *     gcc -std=c99 -Wall -Wextra -Iinclude examples/shift.c crates/slopeboard_c/out/libslopeboard.a -o shift
 */
#include <stdio.h>
#include <string.h>

#include "slopeboard.h"

#define GROOMERS 2
#define SLOPES 3
#define TURNS 4
#define NUMBERS (SLOPEBOARD_NUMBERS_PER_TURN * TURNS)

/* Slope, groomer, start, length, worth, driver (0 for none): as they were typed, in any order. */
static const uint16_t typed[NUMBERS] = {
    1, 1, 0,   60,  100, 0,
    2, 1, 30,  60,  150, 0,
    1, 2, 0,   120, 80,  0,
    3, 2, 120, 60,  90,  0,
};

/* The room for the largest sheet and listing is too much for many a stack. */
static uint8_t sheet[SLOPEBOARD_MOST_SHEET_BYTES], other[SLOPEBOARD_MOST_SHEET_BYTES];
static uint8_t kept[SLOPEBOARD_MOST_SHEET_BYTES], text[SLOPEBOARD_MOST_TEXT_BYTES];
static size_t sheet_len, board_len;
static uint8_t board[SLOPEBOARD_BOARD_BYTES(TURNS)];

/* Says on standard error where things went wrong; gives the program's exit status. */
static int refused(const char *what, unsigned number) {
    fprintf(stderr, "%s refused %u\n", what, number);
    return 1;
}

/* Writes the shift's sheet, and the board that is planned for it. */
static int make_board(void) {
    slopeboard_write_answer written = slopeboard_write(GROOMERS, SLOPES, typed, NUMBERS, sheet, sizeof sheet);
    if (written.refusal != 0) return refused("write", written.refusal);
    sheet_len = written.bytes;
    slopeboard_plan_answer planned = slopeboard_plan(sheet, sheet_len, board, sizeof board);
    if (planned.refusal != 0) return refused("plan", planned.refusal);
    board_len = planned.bytes;
    return 0;
}

/* The sheet has the turns sorted, and from there on they are numbered as it has them: here 0, 2, 1, 3 of those above. */
static int show_sheet(void) {
    uint16_t table[NUMBERS];
    slopeboard_read_answer read = slopeboard_read(sheet, sheet_len, table, NUMBERS);
    if (read.refusal != 0) return refused("read", read.refusal);
    printf("%u groomers, %u slopes, %u turns\n", read.groomers, read.slopes, read.turns);
    for (unsigned turn = 0; turn < TURNS; turn++) {
        const uint16_t *row = table + SLOPEBOARD_NUMBERS_PER_TURN * turn;
        printf("turn %u: slope %u groomer %u from %u worth %u\n", turn, row[0], row[1], row[2], row[4]);
    }
    return 0;
}

/* The planned board. Whoever made a board, the check tells whether it is right. */
static int show_board(void) {
    uint8_t opened = slopeboard_open(board, board_len);
    if (opened != 0) return refused("open", opened);
    slopeboard_part steps = slopeboard_steps(board, board_len);
    for (size_t place = 0; place + 4 <= steps.length; place += 4) {
        const uint8_t *step = board + steps.start + place;
        printf("step on turn %u for %u\n", step[0] << 8 | step[1], step[2] << 8 | step[3]);
    }
    slopeboard_count_answer chosen = slopeboard_count(board, board_len);
    if (chosen.refusal != 0) return refused("count", chosen.refusal);
    printf("%u of %u turns are driven\n", (unsigned)chosen.turns, TURNS);
    for (unsigned turn = 0; turn < TURNS; turn++) {
        if (slopeboard_is_chosen(board, board_len, turn)) printf("turn %u is driven\n", turn);
    }
    slopeboard_check_answer checked = slopeboard_check(sheet, sheet_len, board, board_len);
    if (checked.refusal != 0) return refused("check", checked.refusal);
    printf("checked: worth %u tally %u ceiling %u\n", (unsigned)checked.worth, (unsigned)checked.tally,
           (unsigned)checked.ceiling);
    return 0;
}

static int show_listing(void) {
    slopeboard_list_answer listed = slopeboard_list(sheet, sheet_len, text, sizeof text);
    if (listed.refusal != 0) return refused("list", listed.refusal);
    fwrite(text, 1, listed.bytes, stdout);
    return 0;
}

/* All turns shared out among groomers, each of whom can do every turn. */
static int show_groomers(void) {
    uint16_t groomers[TURNS];
    slopeboard_assign_answer assigned = slopeboard_assign(sheet, sheet_len, groomers, TURNS);
    if (assigned.refusal != 0) return refused("assign", assigned.refusal);
    printf("all turns take %u groomers\n", assigned.groomers);
    for (unsigned turn = 0; turn < TURNS; turn++) printf("turn %u by groomer %u\n", turn, groomers[turn]);
    return 0;
}

static int print_refined(const char *what, uint32_t worth, uint32_t limit, uint32_t rounds) {
    printf("%s: worth %u limit %u after %u rounds\n", what, (unsigned)worth, (unsigned)limit, (unsigned)rounds);
    return 0;
}

/* A price for each slope, then for each turn. Any prices give a limit; rounds look for a low one and a better board.
 * Where both meet, no board is worth more. */
static int show_prices(void) {
    uint16_t prices[SLOPES + TURNS] = {60, 40, 10};
    slopeboard_limit_answer limit = slopeboard_limit(sheet, sheet_len, prices, SLOPES + TURNS);
    if (limit.refusal != 0) return refused("limit", limit.refusal);
    printf("limit at slopes' prices 60, 40, 10: %u\n", (unsigned)limit.limit);
    uint8_t better[SLOPEBOARD_BOARD_BYTES(TURNS)];
    slopeboard_refine_answer refined = slopeboard_refine(sheet, sheet_len, 100, better, sizeof better, prices, SLOPES + TURNS);
    if (refined.refusal != 0) return refused("refine", refined.refusal);
    return print_refined("refined", refined.worth, refined.limit, refined.rounds);
}

/* The search for a better choice of few turns, with at most a thousand visits. */
static int show_search(void) {
    uint8_t map[SLOPEBOARD_MAP_BYTES(TURNS)];
    slopeboard_improve_answer found = slopeboard_improve(sheet, sheet_len, 1000, map, sizeof map);
    if (found.refusal != 0) return refused("improve", found.refusal);
    printf("searched: worth %u map %02X, %u visits, %s sets\n", (unsigned)found.worth, map[0], (unsigned)found.visits,
           found.whole ? "all" : "not all");
    return 0;
}

/* The shift without its second turn on slope 1: now a table gives the best. */
static int show_one_turn_a_slope(void) {
    static const uint16_t turns[] = {
        1, 1, 0,   60, 100, 0,
        2, 1, 30,  60, 150, 0,
        3, 2, 120, 60, 90,  0,
    };
    size_t count = sizeof turns / sizeof turns[0];
    slopeboard_write_answer written = slopeboard_write(GROOMERS, SLOPES, turns, count, other, sizeof other);
    if (written.refusal != 0) return refused("write", written.refusal);
    uint8_t map[SLOPEBOARD_MAP_BYTES(3)];
    slopeboard_best_answer best = slopeboard_best(other, written.bytes, map, sizeof map);
    if (best.refusal != 0) return refused("best", best.refusal);
    printf("one turn a slope: best worth %u map %02X\n", (unsigned)best.worth, map[0]);
    return 0;
}

/* The board played with turn 2 a quarter of an hour late. */
static int show_play(void) {
    static const uint16_t delays[TURNS] = {0, 0, 15, 0};
    slopeboard_standing list[GROOMERS];
    slopeboard_play_answer played = slopeboard_play(sheet, sheet_len, board, board_len, delays, TURNS, list, GROOMERS);
    if (played.refusal != 0) return refused("play", played.refusal);
    for (unsigned groomer = 1; groomer <= played.groomers; groomer++) {
        slopeboard_standing minutes = list[groomer - 1];
        printf("groomer %u works %u drives %u stands %u\n", groomer, minutes.working, minutes.driving, minutes.standing);
    }
    return 0;
}

/* The sheet by column, and back. */
static int show_archive(void) {
    slopeboard_write_answer keeping = slopeboard_keep(sheet, sheet_len, kept, sizeof kept);
    if (keeping.refusal != 0) return refused("keep", keeping.refusal);
    slopeboard_write_answer restored = slopeboard_restore(kept, keeping.bytes, other, sizeof other);
    if (restored.refusal != 0) return refused("restore", restored.refusal);
    int same = restored.bytes == sheet_len && memcmp(other, sheet, sheet_len) == 0;
    printf("kept in %u bytes, restored: %s sheet\n", (unsigned)keeping.bytes, same ? "the same" : "another");
    return 0;
}

/* A hall of 10 units and 2 vehicles, with three windows. */
static const uint8_t hall[] = {
    'G', 'R', 'E', 10, 2, 0, 3,      /* units, vehicles, windows */
    0x1F, 1, 6, 0, 0, 0, 10, 0, 100, /* vehicle 1 draws 6 in minutes 0 to 9, worth 100 */
    0x16, 3, 0, 20, 0, 90,           /* again vehicle 1: draws 3 in minutes 20 to 29, worth 90 */
    0x17, 2, 5, 0, 5, 0, 80,         /* vehicle 2 draws 5 in minutes 5 to 14, worth 80 */
};

/* The hall's plan; a limit with a price of 40 sixteenths on minute 5; rounds. */
static int show_hall(void) {
    static uint16_t prices[SLOPEBOARD_MINUTES];
    uint8_t map[SLOPEBOARD_MAP_BYTES(3)];
    slopeboard_charge_answer charged = slopeboard_charge(hall, sizeof hall, map, sizeof map);
    if (charged.refusal != 0) return refused("charge", charged.refusal);
    printf("hall: worth %u map %02X\n", (unsigned)charged.worth, map[0]);
    prices[5] = 40;
    slopeboard_limit_answer limit = slopeboard_charge_limit(hall, sizeof hall, prices, SLOPEBOARD_MINUTES);
    if (limit.refusal != 0) return refused("charge_limit", limit.refusal);
    printf("hall's limit at a price in minute 5: %u\n", (unsigned)limit.limit);
    slopeboard_charge_refine_answer refined =
        slopeboard_charge_refine(hall, sizeof hall, 100, map, sizeof map, prices, SLOPEBOARD_MINUTES);
    if (refined.refusal != 0) return refused("charge_refine", refined.refusal);
    return print_refined("hall refined", refined.worth, refined.limit, refined.rounds);
}

/* The same hard sheet on every box: 64 turns from seed 7, for 4 groomers on 20 slopes. The planned board, and what
 * rounds make of it. */
static int show_drawn(void) {
    static uint16_t table[SLOPEBOARD_NUMBERS_PER_TURN * SLOPEBOARD_MOST_SHORT_TURNS], prices[20 + 64];
    static uint8_t large[SLOPEBOARD_BOARD_BYTES(64)];
    slopeboard_write_answer drawn = slopeboard_draw(7, 4, 20, 64, other, sizeof other);
    if (drawn.refusal != 0) return refused("draw", drawn.refusal);
    slopeboard_read_answer read = slopeboard_read_short(other, drawn.bytes, table, sizeof table / sizeof table[0]);
    if (read.refusal != 0) return refused("read_short", read.refusal);
    printf("drawn: %u turns in %u bytes\n", read.turns, (unsigned)drawn.bytes);
    slopeboard_plan_answer planned = slopeboard_plan(other, drawn.bytes, large, sizeof large);
    if (planned.refusal != 0) return refused("plan", planned.refusal);
    slopeboard_check_answer checked = slopeboard_check(other, drawn.bytes, large, planned.bytes);
    if (checked.refusal != 0) return refused("check", checked.refusal);
    printf("planned: worth %u ceiling %u\n", (unsigned)checked.worth, (unsigned)checked.ceiling);
    slopeboard_refine_answer refined = slopeboard_refine(other, drawn.bytes, 100, large, sizeof large, prices, 20 + 64);
    if (refined.refusal != 0) return refused("refine", refined.refusal);
    return print_refined("refined", refined.worth, refined.limit, refined.rounds);
}

int main(void) {
    return make_board() || show_sheet() || show_board() || show_listing() || show_groomers() || show_prices() ||
           show_search() || show_one_turn_a_slope() || show_play() || show_archive() || show_hall() || show_drawn();
}
