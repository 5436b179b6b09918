/* Slope board: chooses which turns of a night's grooming are driven, and checks such choices.
 *
 * A sheet lists the turns that could be driven. A board says which of them are chosen, and has the steps by which
 * they were found. docs/FORMATS.md has the bytes of both, the method, and all rules. In sheets and boards a number
 * of several bytes begins with its high byte. Turns are numbered from 0 in the order of the sheet, slopes and
 * groomers from 1.
 *
 * A turn ends at its start plus its length. Two different turns conflict if both are on one slope; also if both are
 * for one groomer, or name one driver, and each starts before the other's end plus 10. So ten free minutes between
 * two turns are enough. Driver 0 is none. A feasible set is a set of a sheet's turns of which no two conflict; it is
 * worth what its turns are worth together.
 *
 * Link libslopeboard.a. It asks for memcpy, memmove and memset and nothing else. The archive is for x86-64; calls and
 * structs are as the System V ABI says.
 *
 * What holds for every function:
 *
 * - A slice is a pointer and a length, counted in elements. With length 0 the pointer may be any value, also NULL.
 *   Otherwise it points to that many elements, readable during the call and, in a lent buffer, writable.
 * - A slice without 'const' is a lent buffer. It overlaps no other slice of the call. Slices that are only read may
 *   overlap.
 * - A slice of 16-bit numbers, or of slopeboard_standing, is aligned as uint16_t.
 * - The content of a slice may be anything. Every call returns an answer.
 * - 'refusal' in an answer is 0, or one of the numbers below. On a refusal every other field is 0 or false, and no
 *   lent buffer has changed. If several causes are there, the first in the order under the function counts.
 * - On success the places of a lent buffer after the last one written are as they were.
 * - No pointer is kept. There is no heap, no lock, no global state, no input or output. Calls in several threads do
 *   not disturb each other if none uses a lent buffer of another.
 * - All working space is on the caller's stack: at most SLOPEBOARD_STACK_.. bytes, given for each function below. No
 *   function calls itself but the search of slopeboard_improve, one level deeper for each of at most 64 turns.
 * - Times, measured with an older kit's archive and not proved, in microseconds: one call on the slowest sheets known,
 *   the best of many rounds over 64 sheets (reference/bench), on one core of an AMD EPYC server that others used too.
 *   slopeboard_charge 148, slopeboard_list 139, slopeboard_plan 121, slopeboard_play 88, slopeboard_check 61,
 *   slopeboard_assign 16, slopeboard_limit 13, slopeboard_keep 12, slopeboard_draw 14, slopeboard_write 10 (some 30 on
 *   a table made to be slow to sort), slopeboard_charge_limit 6.0, slopeboard_restore 9.4, slopeboard_read 2.5,
 *   slopeboard_best 2.5; slopeboard_improve 51 for 10,000 visits; slopeboard_refine 273 and slopeboard_charge_refine
 *   460 for 50 rounds. A slower sheet may exist.
 */
#ifndef SLOPEBOARD_H
#define SLOPEBOARD_H

#include <stdbool.h>
#include <stddef.h>
#include <stdint.h>

#ifdef __cplusplus
extern "C" {
#endif

/* The number of this interface. Each change that a caller can see raises it. */
#define SLOPEBOARD_VERSION 19

/* The refusals. In a charging sheet the turns are windows and the slopes are vehicles. */
enum {
    SLOPEBOARD_TRUNCATED = 1,         /* the sheet ends inside its header, or before a record is complete */
    SLOPEBOARD_BAD_MAGIC = 2,         /* the sheet does not open with GRM (kept form: GRC, charging sheet: GRE) */
    SLOPEBOARD_BAD_COUNTS = 3,        /* groomers not in 1 to 16, or slopes not in 1 to 120
                                       * (charging sheet: units not in 1 to 48, or vehicles not in 1 to 60) */
    SLOPEBOARD_TOO_MANY_TURNS = 4,    /* more than 400 turns */
    SLOPEBOARD_BAD_MAP = 5,           /* a map above 3F, or a first map that is neither 1F nor 3F
                                       * (charging sheet: a map above 1F, or a first map that is not 1F) */
    SLOPEBOARD_BAD_SLOPE = 6,         /* a turn's slope is 0 or above the sheet's count */
    SLOPEBOARD_BAD_GROOMER = 7,       /* a turn's groomer is 0 or above the sheet's count */
    SLOPEBOARD_BAD_TIME = 8,          /* a turn's length is 0, or its end is above 960 */
    SLOPEBOARD_BAD_WORTH = 9,         /* a turn's worth is 0 or above 60,000 */
    SLOPEBOARD_TRAILING_BYTES = 10,   /* there are bytes after the last record */
    SLOPEBOARD_BUFFER_TOO_SMALL = 11, /* a lent buffer is shorter than the function asks */
    SLOPEBOARD_MALFORMED_BOARD = 12,  /* the bytes are no board, or one of another number of turns */
    SLOPEBOARD_CHOSEN_CONFLICT = 13,  /* two chosen turns conflict */
    SLOPEBOARD_NOT_MAXIMAL = 14,      /* a turn that is not chosen conflicts with no chosen turn */
    SLOPEBOARD_WRONG_STEP = 15,       /* a step is not right where it stands */
    SLOPEBOARD_TURN_LEFT_OPEN = 16,   /* the steps leave a turn open */
    SLOPEBOARD_WRONG_SUMS = 17,       /* tally or worth is not its sum, or the worth is below the tally */
    SLOPEBOARD_PARTIAL_TURN = 18,     /* the length of a turn table is no multiple of six */
    SLOPEBOARD_BAD_DRIVER = 19,       /* a turn's driver is above 40 */
    SLOPEBOARD_TOO_MANY_FOR_SHORT = 20, /* more than 96 turns, for slopeboard_read_short */
    SLOPEBOARD_NOT_SINGLE_TURNS = 21, /* a slope has two turns, or a turn names a driver, for slopeboard_best */
    SLOPEBOARD_TOO_MANY_TO_SEARCH = 22, /* more than 64 turns, for slopeboard_improve */
    SLOPEBOARD_BAD_SEED = 23,         /* the seed is 0 or above SLOPEBOARD_MOST_SEED */
    SLOPEBOARD_BAD_DELAYS = 24,       /* the delays are not one for each turn, or one is above 120 */
    SLOPEBOARD_BAD_DRAW = 25,         /* a window's draw is 0 or above the hall's units */
    SLOPEBOARD_BAD_PRICES = 26        /* there are not as many prices as slopes and turns together (charging: not 960) */
};

/* The greatest numbers, and the room that is always enough. */
#define SLOPEBOARD_MOST_GROOMERS 16
#define SLOPEBOARD_MOST_SLOPES 120
#define SLOPEBOARD_MOST_TURNS 400
#define SLOPEBOARD_MOST_SHORT_TURNS 96
#define SLOPEBOARD_MOST_SEARCHED_TURNS 64
#define SLOPEBOARD_MOST_DRIVER 40
#define SLOPEBOARD_MOST_SEED 2147483646
#define SLOPEBOARD_MOST_DELAY 120
#define SLOPEBOARD_NO_TURN 65535
#define SLOPEBOARD_MOST_UNITS 48
#define SLOPEBOARD_MOST_VEHICLES 60
#define SLOPEBOARD_MINUTES 960
#define SLOPEBOARD_NUMBERS_PER_TURN 6
#define SLOPEBOARD_MOST_NUMBERS (SLOPEBOARD_NUMBERS_PER_TURN * SLOPEBOARD_MOST_TURNS)
/* Enough for every sheet and every kept form: a header of 7 bytes and records of at most 10. */
#define SLOPEBOARD_MOST_SHEET_BYTES (7 + 10 * SLOPEBOARD_MOST_TURNS)
/* The bytes of a choice map. Turn t has bit t % 8 of byte t / 8, bit 0 being the lowest: 1 if it is chosen. Bits
 * after the last turn are 0. */
#define SLOPEBOARD_MAP_BYTES(turns) (((turns) + 7) / 8)
/* A price list has a number for each slope and one for each turn. That of a hall has SLOPEBOARD_MINUTES. */
#define SLOPEBOARD_MOST_PRICES (SLOPEBOARD_MOST_SLOPES + SLOPEBOARD_MOST_TURNS)
/* The room that slopeboard_plan and slopeboard_refine ask for. The board may be shorter. */
#define SLOPEBOARD_BOARD_BYTES(turns) (15 + ((turns) + 7) / 8 + 4 * (turns))
#define SLOPEBOARD_MOST_BOARD_BYTES SLOPEBOARD_BOARD_BYTES(SLOPEBOARD_MOST_TURNS)
/* Enough for every listing: none has more than 3,823 bytes. There are at most 16 headings of 11 bytes; at most 120
 * lines of 30 bytes, since of the turns of a slope at most one is chosen; and a last line of at most 47. (The longest
 * listing of all has 3,704 bytes, by a count that is not proved.) */
#define SLOPEBOARD_MOST_TEXT_BYTES 4096

/* The stack that each function needs, in bytes: read off the compiled code of this archive, with the arguments that
 * are not in registers and with what the ABI lets a function write below the stack pointer. What memcpy, memmove
 * and memset need beyond their return address comes on top. */
#define SLOPEBOARD_STACK_ASSIGN 10752
#define SLOPEBOARD_STACK_BEST 14000
#define SLOPEBOARD_STACK_CHARGE 25744
#define SLOPEBOARD_STACK_CHARGE_LIMIT 13890
#define SLOPEBOARD_STACK_CHARGE_REFINE 36712
#define SLOPEBOARD_STACK_CHECK 13360
#define SLOPEBOARD_STACK_COUNT 24
#define SLOPEBOARD_STACK_DRAW 4200
#define SLOPEBOARD_STACK_IMPROVE 17776
#define SLOPEBOARD_STACK_IS_CHOSEN 8
#define SLOPEBOARD_STACK_KEEP 5426
#define SLOPEBOARD_STACK_LIMIT 20528
#define SLOPEBOARD_STACK_LIST 23088
#define SLOPEBOARD_STACK_OPEN 16
#define SLOPEBOARD_STACK_PLAN 15536
#define SLOPEBOARD_STACK_PLAY 24192
#define SLOPEBOARD_STACK_READ 5026
#define SLOPEBOARD_STACK_READ_SHORT 5026
#define SLOPEBOARD_STACK_REFINE 54656
#define SLOPEBOARD_STACK_RESTORE 4888
#define SLOPEBOARD_STACK_STEPS 8
#define SLOPEBOARD_STACK_WRITE 4216

typedef struct {
    uint8_t refusal;
    uint16_t groomers;
    uint16_t slopes;
    uint16_t turns;
} slopeboard_read_answer;

typedef struct {
    uint8_t refusal;
    uint32_t bytes; /* how many were written, from the buffer's start */
} slopeboard_write_answer;

typedef slopeboard_write_answer slopeboard_plan_answer;
typedef slopeboard_write_answer slopeboard_list_answer;

typedef struct {
    size_t start;
    size_t length;
} slopeboard_part;

typedef struct {
    uint8_t refusal;
    uint32_t turns;
} slopeboard_count_answer;

typedef struct {
    uint8_t refusal;
    uint32_t tally;
    uint32_t worth;
    uint32_t ceiling;
} slopeboard_check_answer;

typedef struct {
    uint8_t refusal;
    uint16_t groomers; /* how many do all turns */
} slopeboard_assign_answer;

typedef struct {
    uint8_t refusal;
    uint32_t worth;
} slopeboard_best_answer;

typedef struct {
    uint8_t refusal;
    bool whole;      /* whether the search ran to its end */
    uint32_t worth;  /* of the set in the map */
    uint32_t above;  /* the ceiling of the planned board less this worth */
    uint64_t visits; /* how many were made */
} slopeboard_improve_answer;

/* How many of the 960 minutes a groomer worked, drove over and stood. */
typedef struct {
    uint16_t working;
    uint16_t driving;
    uint16_t standing;
    uint16_t turn; /* the turn that it worked on in minute 959, SLOPEBOARD_NO_TURN if none */
} slopeboard_standing;

typedef struct {
    uint8_t refusal;
    uint16_t groomers;
} slopeboard_play_answer;

typedef struct {
    uint8_t refusal;
    uint32_t worth;
} slopeboard_charge_answer;

typedef struct {
    uint8_t refusal;
    uint32_t limit; /* no feasible set (charging: no allowed set) is worth more */
} slopeboard_limit_answer;

typedef struct {
    uint8_t refusal;
    uint32_t bytes;  /* how many bytes the board has */
    uint32_t worth;  /* of the chosen turns */
    uint32_t limit;  /* at the written prices */
    uint32_t rounds; /* how many were made */
} slopeboard_refine_answer;

typedef struct {
    uint8_t refusal;
    uint32_t worth;  /* of the windows in the map */
    uint32_t limit;  /* at the written prices */
    uint32_t rounds; /* how many were made */
} slopeboard_charge_refine_answer;

/* Reads a sheet into a turn table: for each turn slope, groomer, start, length, worth and driver, which is 0 if the
 * turn names none. The answer has the counts of the sheet's header.
 *
 * Refusals, in this order: 1 for fewer than 7 bytes, 2, 3, 4; then for each record 1 for a missing map, 5, 1 for
 * missing fields, 6, 7, 8, 9, 19; then 10; then 11 if table_len is below six times the number of turns. */
slopeboard_read_answer slopeboard_read(const uint8_t *sheet, size_t sheet_len, uint16_t *table, size_t table_len);

/* Reads a sheet as slopeboard_read does, but takes at most SLOPEBOARD_MOST_SHORT_TURNS turns. If neither refuses a
 * sheet, both give the same answer and the same turns.
 *
 * Refusals: those of slopeboard_read in their order, with 20 for more than 96 turns in the place of 4. */
slopeboard_read_answer slopeboard_read_short(const uint8_t *sheet, size_t sheet_len, uint16_t *table,
                                             size_t table_len);

/* Writes the sheet with these counts and the turns of the table. The turns stand by slope, then by groomer, start,
 * length, worth and driver, each rising, whatever their order in the table. A turn that is in the table twice is on
 * the sheet twice. Every other sheet of these counts and turns in this order is longer. Turns get their numbers by
 * the order of the sheet: read it back to know them.
 *
 * Refusals, in this order: 18, 3, 4; then for each turn, in the table's order, 6, 7, 8, 9, 19; then 11 if bytes_len
 * is below the bytes of the sheet. SLOPEBOARD_MOST_SHEET_BYTES are always enough. */
slopeboard_write_answer slopeboard_write(uint32_t groomers, uint32_t slopes, const uint16_t *table, size_t table_len,
                                         uint8_t *bytes, size_t bytes_len);

/* Plans the turns of a sheet and writes the board. slopeboard_check passes it, and tells its worth and what no
 * feasible set can exceed.
 *
 * A turn is open while some of its worth is left. Each step is on the open turn that ends first; of several, on the
 * one of which most is left; of these, on the one with the lowest number. What is left of it is the step's amount,
 * and is taken from it and from each open turn that conflicts with it. (A board made elsewhere may have its steps in
 * another order and pass.)
 *
 * Refusals: those of slopeboard_read but 11, in their order; then 11 if board_len is below SLOPEBOARD_BOARD_BYTES of
 * the sheet's turns. */
slopeboard_plan_answer slopeboard_plan(const uint8_t *sheet, size_t sheet_len, uint8_t *board, size_t board_len);

/* Gives 0 if the bytes are a board, else 12. A board opens with GRB, has no more steps than turns, is exactly as long
 * as these two numbers ask, and has no bit after the last turn in its choice map. Nothing else is judged; it may have
 * more turns than any sheet. */
uint8_t slopeboard_open(const uint8_t *board, size_t board_len);

/* Where the steps stand in a board: the place of their first byte and their length in bytes, four a step. Both are 0
 * if slopeboard_open gives 12; a board without steps has length 0 too. */
slopeboard_part slopeboard_steps(const uint8_t *board, size_t board_len);

/* How many turns are chosen in a board.
 *
 * Refusal: 12 if slopeboard_open gives 12. */
slopeboard_count_answer slopeboard_count(const uint8_t *board, size_t board_len);

/* Whether a turn is chosen in a board. False if slopeboard_open gives 12, or if the board has no such turn. */
bool slopeboard_is_chosen(const uint8_t *board, size_t board_len, size_t turn);

/* Checks a board, whoever made it, against a sheet. The answer has the board's tally and worth, and the ceiling of its
 * steps. If nothing is refused:
 *
 * - No feasible set is worth more than the ceiling.
 * - The ceiling is at most three times the tally; at most twice, if no turn names a driver.
 * - The worth is at least the tally. No two chosen turns conflict, and every other turn conflicts with a chosen one.
 * - If no turn names a driver and no slope has two turns, ceiling, tally and worth are one number: no feasible set is
 *   worth more than the board.
 *
 * The ceiling adds up the amounts of the steps, each once, twice or three times. Put the turns from which a step takes
 * its amount into three groups: those that conflict with the step's turn by slope, by groomer, by driver. The step's
 * turn is in all three. The amount counts once if one group has all of them, else twice if two groups together have
 * them, else three times.
 *
 * Refusals: those of slopeboard_read but 11, in their order; then 12 if slopeboard_open gives 12 or the board has
 * another number of turns than the sheet; then 13, 14, 15, 16, 17. */
slopeboard_check_answer slopeboard_check(const uint8_t *sheet, size_t sheet_len, const uint8_t *board, size_t board_len);

/* Plans the turns of a sheet and writes the drivers' listing of the board, as ASCII text. Each line ends in a line
 * feed; no 0 byte follows the last. Each groomer of the sheet, by number, has a heading such as "groomer 1", also if
 * it drives nothing, and below it a line for each of its chosen turns, by start: "30-90 slope 2 worth 150". The last
 * line is such as "worth 240 tally 240 ceiling 340".
 *
 * Refusals: those of slopeboard_read but 11, in their order; then 11 if text_len is below the bytes of this very
 * listing. SLOPEBOARD_MOST_TEXT_BYTES are always enough. */
slopeboard_list_answer slopeboard_list(const uint8_t *sheet, size_t sheet_len, uint8_t *text, size_t text_len);

/* Gives every turn of a sheet a groomer, as if any groomer could do any turn: the groomers, slopes and drivers that
 * the sheet names play no part. Turns are taken by start, those of one start by number. Each gets the lowest number,
 * from 1, whose turns so far all leave ten free minutes to it. It is written at the turn's place, and may be above 16.
 * The answer has how many groomers are used, 0 for no turns. No assignment with ten free minutes between two turns of
 * a groomer uses fewer.
 *
 * Refusals: those of slopeboard_read but 11, in their order; then 11 if places_len is below the number of turns. */
slopeboard_assign_answer slopeboard_assign(const uint8_t *sheet, size_t sheet_len, uint16_t *places, size_t places_len);

/* Works out the best worth on a sheet on which no slope has two turns and no turn names a driver: no feasible set is
 * worth more. Writes the choice map of a feasible set that earns it. Worth and map are those of the board that
 * slopeboard_plan writes. If another set earns as much, then of the turns of a groomer in which the two differ this
 * one leaves out the last, by end and then by number.
 *
 * Refusals: those of slopeboard_read but 11, in their order; then 21 for any other sheet; then 11 if map_len is below
 * SLOPEBOARD_MAP_BYTES of the sheet's turns. */
slopeboard_best_answer slopeboard_best(const uint8_t *sheet, size_t sheet_len, uint8_t *map, size_t map_len);

/* Looks for a feasible set that is worth more than the board of slopeboard_plan, in at most `visits` visits.
 * Writes the choice map of the best set found.
 *
 * The search starts with no turn taken and comes to the turns in the order of the sheet; coming to a turn is a visit.
 * If the turn conflicts with none taken, the search goes on with it, and when all of that is done, without it; else
 * only without it. After the last turn, which is no visit, the turns taken replace the best set if they are worth
 * more. At first the best set is that of the planned board.
 *
 * The answer has the visits made: the visits allowed or those of the whole search, whichever are fewer. If 'whole' is
 * true, no feasible set is worth more than 'worth'. In any case none is worth more than 'worth' plus 'above'. More
 * visits never find less.
 *
 * Refusals: those of slopeboard_read but 11, in their order; then 22 for more than SLOPEBOARD_MOST_SEARCHED_TURNS
 * turns; then 11 if map_len is below SLOPEBOARD_MAP_BYTES of the sheet's turns. */
slopeboard_improve_answer slopeboard_improve(const uint8_t *sheet, size_t sheet_len, uint64_t visits, uint8_t *map,
                                             size_t map_len);

/* Draws as many turns as asked from a seed, for the given counts of groomers and slopes, and writes their sheet as
 * slopeboard_write does. slopeboard_read accepts it. The same seed and counts give the same sheet everywhere.
 *
 * Each number is the last one times 16,807, modulo 2,147,483,647; the seed stands before the first and is not used
 * itself. Five numbers make a turn, in this order, each by a remainder: slope (by the slopes, plus 1), groomer (by the
 * groomers, plus 1), start (by 841), length (by 100: below 40 gives 30 minutes, below 70 gives 45, below 90 gives 60,
 * else 90), worth (by 60,000, plus 1). No turn names a driver.
 *
 * Refusals, in this order: 23, 3, 4; then 11 if bytes_len is below the bytes of the sheet.
 * SLOPEBOARD_MOST_SHEET_BYTES are always enough. */
slopeboard_write_answer slopeboard_draw(uint64_t seed, uint32_t groomers, uint32_t slopes, uint32_t turns,
                                        uint8_t *bytes, size_t bytes_len);

/* Writes the kept form of a sheet: the mark GRC and the other four bytes of the header; then the maps of all records;
 * then all slopes that the maps name, in the order of the records; then all groomers, starts, lengths, worths and
 * drivers likewise. It is as long as the sheet.
 *
 * Refusals: those of slopeboard_read but 11, in their order; then 11 if kept_len is below the bytes of the sheet. */
slopeboard_write_answer slopeboard_keep(const uint8_t *sheet, size_t sheet_len, uint8_t *kept, size_t kept_len);

/* Writes the sheet of a kept form. A sheet that is kept and restored has its very bytes again. So has a kept form,
 * whoever wrote it, that is restored and kept.
 *
 * Refusals, in this order: 1 for fewer than 7 bytes; 2; 3; 4; 1 for fewer maps than turns; 5 for each map in order; 1
 * or 10 for fewer or more bytes after the maps than these ask for; then for each turn 6, 7, 8, 9, 19; then 11 if
 * sheet_len is below the bytes of the kept form. */
slopeboard_write_answer slopeboard_restore(const uint8_t *kept, size_t kept_len, uint8_t *sheet, size_t sheet_len);

/* Plays minutes 0 to 959 of a board that slopeboard_check passes. delays has a number of minutes for each turn, at
 * the turn's number. Of a groomer's chosen turns the one that starts first comes first. Each begins at its start
 * or, if that is later, ten minutes after the groomer's turn before it ended, and lasts its length and its delay. In
 * these minutes the groomer works; in the ten minutes after every turn it drives over; in all others it stands.
 *
 * Writes the standing of groomer g at place g - 1 of the list; what the list held plays no part. The answer has the
 * number of groomers. If all delays are 0, each chosen turn is worked exactly in its own minutes.
 *
 * Refusals: those of slopeboard_check, in their order; then 24 if delays_len is not the number of turns, or if a
 * delay, of a chosen turn or not, is above SLOPEBOARD_MOST_DELAY; then 11 if list_len is below the groomers. */
slopeboard_play_answer slopeboard_play(const uint8_t *sheet, size_t sheet_len, const uint8_t *board, size_t board_len,
                                       const uint16_t *delays, size_t delays_len, slopeboard_standing *list,
                                       size_t list_len);

/* Plans the windows of a charging hall and writes the choice map of the plan. The answer has its worth.
 *
 * A charging sheet is laid out as a sheet, with the mark GRE. The units of the hall stand in the place of the
 * groomers, its vehicles in that of the slopes. A record is a window: its slope is the vehicle, its groomer the draw;
 * it has no driver. Windows are allowed together if they are of different vehicles and in no minute draw more than
 * the units together. A window holds its own minutes, not the ten after them.
 *
 * There are two plans. That of the wide windows, which draw more than half of the units, has the steps of
 * slopeboard_plan for turns of one groomer that need no free minutes. In that of the small windows, all others, a
 * step is on the window that slopeboard_plan would pick. It takes its amount from each open small window of that
 * vehicle. From each open small window of another vehicle that shares a minute with it, it takes
 * 2 * draw * amount / units, rounded up, with the draw of the window from which it takes. Both plans then choose as
 * slopeboard_plan does, among their own windows, each that is allowed together with those chosen before. The plan that
 * is worth more is written; of equals, that of the small windows. No allowed set is worth more than five times this
 * plan plus the units times the number of steps on small windows.
 *
 * Refusals, in this order: 1 for fewer than 7 bytes, 2, 3, 4; then for each record 1 for a missing map, 5, 1 for
 * missing fields, 6 for the vehicle, 25 for the draw, 8, 9; then 10; then 11 if map_len is below SLOPEBOARD_MAP_BYTES
 * of the sheet's windows. */
slopeboard_charge_answer slopeboard_charge(const uint8_t *sheet, size_t sheet_len, uint8_t *map, size_t map_len);

/* Works out a limit by prices: whatever the prices are, no feasible set is worth more. Where a board that passes is
 * worth the limit, it is the best there is.
 *
 * The list has the prices of slopes 1, 2, .., then those of turns 0, 1, .., one for each that the sheet has. A turn
 * pays the price of its slope. If it names a driver, it pays besides its own price, and that of each turn that
 * conflicts with it by driver and does not end after it. What is then left of its worth is what it counts for; 0 if it
 * pays as much or more. For each groomer, the set of its turns is found that counts for most, as if each turn had a
 * slope of its own and no driver. Three things add up to the limit: the prices of all slopes, those of the turns with
 * a driver, and what these sets count for.
 *
 * Refusals: those of slopeboard_read but 11, in their order; then 26 if prices_len is not the number of slopes and
 * turns together. */
slopeboard_limit_answer slopeboard_limit(const uint8_t *sheet, size_t sheet_len, const uint16_t *prices,
                                         size_t prices_len);

/* Looks for a better board than slopeboard_plan's and for a low limit, in at most `rounds` rounds, and writes the
 * board and the prices that give the limit.
 *
 * slopeboard_check passes the board. It has the steps and the tally of the planned one, and is worth no less.
 * slopeboard_limit gives the limit again at the written prices, so that no feasible set is worth more: if the
 * worth is the limit, no board is worth more. With more rounds the worth never falls and the limit never
 * rises. The rounds of the answer are those allowed, or fewer if worth and limit meet before.
 *
 * It begins with the planned board, with prices of 0 and with a change: a quarter of the greatest worth on the
 * sheet, rounded up, 0 without turns. Then it looks at the prices. The limit is worked out as
 * slopeboard_limit does it, and is kept with its prices if all before were higher. The groomers' best sets are
 * taken together, of equal ones that which slopeboard_best would show, and a choice is made: their turns by
 * worth, the greatest first, of equals the lowest number, each chosen if it conflicts with none chosen before;
 * then all turns of the sheet likewise. If this choice is worth more than the board's, it takes its place. If
 * the kept limit is now the board's worth, or if all rounds are made, it ends. Else a round moves the prices
 * looked at last, not the kept ones, and it looks again.
 *
 * A round moves each price by how many turns of the best sets pay it. A price that none pays goes down by the
 * change, to 0 at the lowest. One that a single turn pays stays; for each further payer it goes up by the change, to
 * 60,000 at most. Prices of turns go by half of the change, rounded down, or by 1 if that is 0; a driverless turn's
 * stays 0. After each round the change shrinks to 15/16, rounded down, never below 1.
 *
 * Refusals: those of slopeboard_read but 11, in their order; then 11 if board_len is below
 * SLOPEBOARD_BOARD_BYTES of the sheet's turns, or prices_len below the number of slopes and turns together. */
slopeboard_refine_answer slopeboard_refine(const uint8_t *sheet, size_t sheet_len, uint32_t rounds, uint8_t *board,
                                           size_t board_len, uint16_t *prices, size_t prices_len);

/* Works out a charging hall's limit by prices: whatever the prices are, no allowed set of windows is worth more.
 *
 * The list has a price for each minute from 0 to 959, in sixteenths. A window pays the sum of its minutes' prices,
 * times its draw, divided by 16 and rounded down. What is then left of its worth, 0 if nothing is, is what it
 * counts for. Each vehicle takes the window with the greatest count, of equals the lowest number, or none where
 * every count is 0. The limit is what these count for, plus what all units cost in every minute: a sixteenth of
 * units * (all prices added up), without the remainder.
 *
 * Refusals: those of slopeboard_charge but 11, in their order; then 26 if prices_len is not SLOPEBOARD_MINUTES. */
slopeboard_limit_answer slopeboard_charge_limit(const uint8_t *sheet, size_t sheet_len, const uint16_t *prices,
                                                size_t prices_len);

/* Looks for a better set of windows than slopeboard_charge's and for a low limit, in at most `rounds` rounds, and
 * writes its choice map and the prices that give the limit. The set is allowed and is worth no less
 * than the plan of slopeboard_charge; that no further window could be chosen is not promised.
 * slopeboard_charge_limit gives the limit again at the written prices, so that no allowed set is worth more: if
 * the worth is the limit, none is worth more than the written one. With more rounds the worth never falls and the
 * limit never rises. The rounds of the answer are those allowed, or fewer if worth and limit meet before.
 *
 * It works as slopeboard_refine does, from that plan, with the limit of slopeboard_charge_limit and the windows
 * that it takes. A choice is made from these by worth, and then from all windows, of each that may go together
 * with those chosen before. The change, in sixteenths as the prices are, is at first the number that is an eighth of
 * the greatest worth, rounded up, 0 without windows. A round goes by what the windows taken draw in a minute. If that
 * is above the units, the minute's price rises by the change times the excess, divided by the units, rounded up, at
 * most to 65,535. If not, it falls by the change times what is left of the units, divided by the units and rounded
 * down, not below 0.
 *
 * Refusals: those of slopeboard_charge but 11, in their order; then 11 if map_len is below SLOPEBOARD_MAP_BYTES
 * of the sheet's windows, or prices_len below SLOPEBOARD_MINUTES. */
slopeboard_charge_refine_answer slopeboard_charge_refine(const uint8_t *sheet, size_t sheet_len, uint32_t rounds,
                                                         uint8_t *map, size_t map_len, uint16_t *prices,
                                                         size_t prices_len);

#ifdef __cplusplus
}
#endif

#endif
