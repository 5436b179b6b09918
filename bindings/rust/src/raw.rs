//! The library's functions as `include/slopeboard.h` declares them. What a
//! caller owes is said there.

/// What reading a sheet gives. All counts are 0 on a refusal.
#[repr(C)]
#[derive(Clone, Copy, Debug, PartialEq, Eq)]
pub struct ReadAnswer {
    /// 0, or why it refused.
    pub refusal: u8,
    /// How many groomers the sheet has.
    pub groomers: u16,
    /// How many slopes the sheet has.
    pub slopes: u16,
    /// How many turns the sheet has.
    pub turns: u16,
}

/// What a function gives that writes bytes; 0 bytes on a refusal.
#[repr(C)]
#[derive(Clone, Copy, Debug, PartialEq, Eq)]
pub struct WriteAnswer {
    /// 0, or why it refused.
    pub refusal: u8,
    /// How many were written, from the buffer's start.
    pub bytes: u32,
}

/// Where the steps stand in a board; 0 and 0 if it does not open.
#[repr(C)]
#[derive(Clone, Copy, Debug, PartialEq, Eq)]
pub struct Part {
    /// The place of the first byte.
    pub start: usize,
    /// How many bytes, four a step.
    pub length: usize,
}

/// What counting the chosen turns of a board gives; 0 turns on a refusal.
#[repr(C)]
#[derive(Clone, Copy, Debug, PartialEq, Eq)]
pub struct CountAnswer {
    /// 0, or why it refused.
    pub refusal: u8,
    /// How many turns are chosen.
    pub turns: u32,
}

/// What checking a board gives. All sums are 0 on a refusal.
#[repr(C)]
#[derive(Clone, Copy, Debug, PartialEq, Eq)]
pub struct CheckAnswer {
    /// 0, or why it refused.
    pub refusal: u8,
    /// The amounts of all steps together.
    pub tally: u32,
    /// What the chosen turns are worth together.
    pub worth: u32,
    /// What no feasible set is worth more than.
    pub ceiling: u32,
}

/// What assigning groomers to all turns gives; 0 groomers on a refusal.
#[repr(C)]
#[derive(Clone, Copy, Debug, PartialEq, Eq)]
pub struct AssignAnswer {
    /// 0, or why it refused.
    pub refusal: u8,
    /// How many do all turns.
    pub groomers: u16,
}

/// What working out the best worth gives; 0 on a refusal.
#[repr(C)]
#[derive(Clone, Copy, Debug, PartialEq, Eq)]
pub struct BestAnswer {
    /// 0, or why it refused.
    pub refusal: u8,
    /// What the turns in the map are worth.
    pub worth: u32,
}

/// What the search for a better choice gives; 0 and false on a refusal.
#[repr(C)]
#[derive(Clone, Copy, Debug, PartialEq, Eq)]
pub struct ImproveAnswer {
    /// 0, or why it refused.
    pub refusal: u8,
    /// Whether the search ran to its end.
    pub whole: bool,
    /// What the turns in the map are worth.
    pub worth: u32,
    /// The ceiling of the planned board less this worth.
    pub above: u32,
    /// How many were made.
    pub visits: u64,
}

/// What a groomer has done in a shift that was played: three numbers of
/// minutes, and the turn worked in the last minute, 65,535 if none was.
#[repr(C)]
#[derive(Clone, Copy, Debug, Default, PartialEq, Eq)]
pub struct Standing {
    /// Minutes in which it worked on a turn.
    pub working: u16,
    /// Minutes in which it drove over: the ten after each turn.
    pub driving: u16,
    /// All other minutes.
    pub standing: u16,
    /// The turn worked in minute 959, 65,535 if none.
    pub turn: u16,
}

/// What playing a board gives; 0 groomers on a refusal.
#[repr(C)]
#[derive(Clone, Copy, Debug, PartialEq, Eq)]
pub struct PlayAnswer {
    /// 0, or why it refused.
    pub refusal: u8,
    /// How many places of the list were written.
    pub groomers: u16,
}

/// What planning a charging hall gives; 0 on a refusal.
#[repr(C)]
#[derive(Clone, Copy, Debug, PartialEq, Eq)]
pub struct ChargeAnswer {
    /// 0, or why it refused.
    pub refusal: u8,
    /// What the windows in the map are worth.
    pub worth: u32,
}

/// What a limit by prices is, a sheet's or a hall's; 0 on a refusal.
#[repr(C)]
#[derive(Clone, Copy, Debug, PartialEq, Eq)]
pub struct LimitAnswer {
    /// 0, or why it refused.
    pub refusal: u8,
    /// What no feasible set, or no allowed set of windows, is worth more than.
    pub limit: u32,
}

/// What a better board by rounds gives; 0 on a refusal.
#[repr(C)]
#[derive(Clone, Copy, Debug, PartialEq, Eq)]
pub struct RefineAnswer {
    /// 0, or why it refused.
    pub refusal: u8,
    /// How many bytes the board has.
    pub bytes: u32,
    /// What its chosen turns are worth.
    pub worth: u32,
    /// The limit at the written prices.
    pub limit: u32,
    /// How many were made.
    pub rounds: u32,
}

/// What a better set of windows by rounds gives; 0 on a refusal.
#[repr(C)]
#[derive(Clone, Copy, Debug, PartialEq, Eq)]
pub struct ChargeRefineAnswer {
    /// 0, or why it refused.
    pub refusal: u8,
    /// What the windows in the map are worth.
    pub worth: u32,
    /// The limit at the written prices.
    pub limit: u32,
    /// How many were made.
    pub rounds: u32,
}

extern "C" {
    /// Reads a sheet into a turn table.
    pub fn slopeboard_read(
        sheet: *const u8,
        sheet_len: usize,
        table: *mut u16,
        table_len: usize,
    ) -> ReadAnswer;

    /// Reads a sheet of at most 96 turns.
    pub fn slopeboard_read_short(
        sheet: *const u8,
        sheet_len: usize,
        table: *mut u16,
        table_len: usize,
    ) -> ReadAnswer;

    /// Writes the sheet of a turn table.
    pub fn slopeboard_write(
        groomers: u32,
        slopes: u32,
        table: *const u16,
        table_len: usize,
        bytes: *mut u8,
        bytes_len: usize,
    ) -> WriteAnswer;

    /// Plans a sheet's turns and writes the board.
    pub fn slopeboard_plan(
        sheet: *const u8,
        sheet_len: usize,
        board: *mut u8,
        board_len: usize,
    ) -> WriteAnswer;

    /// Gives 0 if the bytes are a board, else 12.
    pub fn slopeboard_open(board: *const u8, board_len: usize) -> u8;

    /// Finds the steps in a board.
    pub fn slopeboard_steps(board: *const u8, board_len: usize) -> Part;

    /// Counts the chosen turns of a board.
    pub fn slopeboard_count(board: *const u8, board_len: usize) -> CountAnswer;

    /// Tells whether a turn is chosen in a board.
    pub fn slopeboard_is_chosen(board: *const u8, board_len: usize, turn: usize) -> bool;

    /// Checks a board against a sheet.
    pub fn slopeboard_check(
        sheet: *const u8,
        sheet_len: usize,
        board: *const u8,
        board_len: usize,
    ) -> CheckAnswer;

    /// Plans a sheet's turns and writes the drivers' listing.
    pub fn slopeboard_list(
        sheet: *const u8,
        sheet_len: usize,
        text: *mut u8,
        text_len: usize,
    ) -> WriteAnswer;

    /// Gives every turn a groomer, as few groomers as can be.
    pub fn slopeboard_assign(
        sheet: *const u8,
        sheet_len: usize,
        places: *mut u16,
        places_len: usize,
    ) -> AssignAnswer;

    /// Works out the best worth where no slope has two turns and no turn a driver.
    pub fn slopeboard_best(
        sheet: *const u8,
        sheet_len: usize,
        map: *mut u8,
        map_len: usize,
    ) -> BestAnswer;

    /// Searches for a set that is worth more than the planned board.
    pub fn slopeboard_improve(
        sheet: *const u8,
        sheet_len: usize,
        visits: u64,
        map: *mut u8,
        map_len: usize,
    ) -> ImproveAnswer;

    /// Draws a sheet from a seed.
    pub fn slopeboard_draw(
        seed: u64,
        groomers: u32,
        slopes: u32,
        turns: u32,
        bytes: *mut u8,
        bytes_len: usize,
    ) -> WriteAnswer;

    /// Writes the kept form of a sheet.
    pub fn slopeboard_keep(
        sheet: *const u8,
        sheet_len: usize,
        kept: *mut u8,
        kept_len: usize,
    ) -> WriteAnswer;

    /// Writes the sheet of a kept form.
    pub fn slopeboard_restore(
        kept: *const u8,
        kept_len: usize,
        sheet: *mut u8,
        sheet_len: usize,
    ) -> WriteAnswer;

    /// Plays a board with delays.
    pub fn slopeboard_play(
        sheet: *const u8,
        sheet_len: usize,
        board: *const u8,
        board_len: usize,
        delays: *const u16,
        delays_len: usize,
        list: *mut Standing,
        list_len: usize,
    ) -> PlayAnswer;

    /// Plans the windows of a charging hall.
    pub fn slopeboard_charge(
        sheet: *const u8,
        sheet_len: usize,
        map: *mut u8,
        map_len: usize,
    ) -> ChargeAnswer;

    /// Works out a limit by prices.
    pub fn slopeboard_limit(
        sheet: *const u8,
        sheet_len: usize,
        prices: *const u16,
        prices_len: usize,
    ) -> LimitAnswer;

    /// Makes a better board, and a low limit, by rounds.
    pub fn slopeboard_refine(
        sheet: *const u8,
        sheet_len: usize,
        rounds: u32,
        board: *mut u8,
        board_len: usize,
        prices: *mut u16,
        prices_len: usize,
    ) -> RefineAnswer;

    /// Works out a hall's limit by prices.
    pub fn slopeboard_charge_limit(
        sheet: *const u8,
        sheet_len: usize,
        prices: *const u16,
        prices_len: usize,
    ) -> LimitAnswer;

    /// Makes a better choice of windows, and a low limit, by rounds.
    pub fn slopeboard_charge_refine(
        sheet: *const u8,
        sheet_len: usize,
        rounds: u32,
        map: *mut u8,
        map_len: usize,
        prices: *mut u16,
        prices_len: usize,
    ) -> ChargeRefineAnswer;
}
