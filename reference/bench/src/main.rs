//! Times this library and the fast reference version side by side and prints
//! a table. It judges nothing: what differs is for the comparison to find.
//!
//! ```text
//! SLOPEBOARD_LIB_DIR=$PWD/crates/slopeboard_c/out cargo run --release -p bench
//! ```
//!
//! With words behind it, only the entries so named are timed.
//!
//! A row goes over 64 different sheets of one kind, one call each, again and
//! again: a single sheet called repeatedly would be learned by the branch
//! predictor. The two versions are timed by turns, so that whatever slows the
//! machine down for a while meets both. The best is the fastest round, the
//! median that of all rounds; the ratio is library to reference by the
//! medians, the growth is the library's median against that of half as many
//! turns. Of an entry's rows, that with the library's greatest best is marked *:
//! such rows give the times in the header.
//!
//! All sheets that are random are drawn from a seed as the library draws them:
//! lengths from 30 to 90, worths from 1 to 60,000.

use std::env;
use std::hint::black_box;
use std::time::{Duration, Instant};

use slopeboard_reference::gen::{self, Rng, Row, Shift};
use slopeboard_reference::halls::{self, Hall};
use slopeboard_reference::limits::{
    LAST_END, MOST_DELAY, MOST_GROOMERS, MOST_WORTH, NUMBERS_PER_TURN,
};
use slopeboard_reference::{fast, naive, prices, shapes};
use Kind::{Turns, Windows};

/// How many different sheets a row goes over.
const SHEETS: usize = 64;

/// The rounds of a version take about so long together.
const LASTING: Duration = Duration::from_millis(250);

/// At least so many rounds, and at most.
const ROUNDS: [usize; 2] = [15, 401];

/// A turn table with its counts, a sheet with its turns in that order, the
/// planner's board for it, its kept form, delays, prices and room for others,
/// a seed, and room for any answer. Of a charging sheet there is no board and no
/// kept form.
struct Job {
    groomers: u32,
    slopes: u32,
    table: Vec<u16>,
    sheet: Vec<u8>,
    board: Vec<u8>,
    kept: Vec<u8>,
    delays: Vec<u16>,
    prices: Vec<u16>,
    minutes: Vec<u16>,
    room: Vec<u16>,
    seed: u64,
    numbers: Vec<u16>,
    bytes: Vec<u8>,
    list: [slopeboard::Standing; MOST_GROOMERS as usize],
    other_list: [fast::Standing; MOST_GROOMERS as usize],
}

impl Job {
    fn of_shift(rng: &mut Rng, shift: &Shift) -> Job {
        let sheet = gen::encode(rng, shift, 0).bytes;
        let mut board = vec![0; slopeboard::board_bytes(shift.turns.len())];
        let len = fast::plan(&sheet, &mut board).expect("the sheet is accepted");
        board.truncate(len);
        let mut kept = vec![0; sheet.len()];
        fast::keep(&sheet, &mut kept).expect("the sheet is accepted");
        let counts = [shift.groomers, shift.slopes].map(u32::from);
        let job = Job::new(rng, counts, &shift.turns, sheet);
        Job { board, kept, ..job }
    }

    fn of_hall(rng: &mut Rng, hall: &Hall) -> Job {
        let sheet = halls::encode(rng, hall, 0).bytes;
        let counts = [hall.units, hall.vehicles].map(u32::from);
        Job::new(rng, counts, &hall.windows, sheet)
    }

    fn new(rng: &mut Rng, [groomers, slopes]: [u32; 2], rows: &[Row], sheet: Vec<u8>) -> Job {
        let seed = 1 + u64::from(rng.below(2_147_483_646));
        let delay = |_| rng.between(0, MOST_DELAY.into()) as u16;
        let delays: Vec<u16> = rows.iter().map(delay).collect();
        let count = slopes as usize + rows.len();
        let prices = prices::list(rng, 4, count, MOST_WORTH.into());
        Job {
            groomers,
            slopes,
            table: rows.concat(),
            sheet,
            board: Vec::new(),
            kept: Vec::new(),
            delays,
            room: vec![0; slopeboard::MINUTES],
            minutes: prices::list(&mut Rng::new(seed), 4, slopeboard::MINUTES, 4000),
            prices,
            seed,
            numbers: vec![0; NUMBERS_PER_TURN * rows.len()],
            bytes: vec![0; slopeboard::MOST_TEXT_BYTES],
            list: Default::default(),
            other_list: Default::default(),
        }
    }

    /// The steps of the board, none for a hall.
    fn steps(&self) -> usize {
        naive::steps(&self.board).len() / 4
    }
}

/// One entry, called in both versions. A call says whether it was accepted.
struct Entry {
    name: &'static str,
    library: fn(&mut Job) -> bool,
    reference: fn(&mut Job) -> bool,
}

const READ: Entry = Entry {
    name: "read",
    library: |job| slopeboard::read(&job.sheet, &mut job.numbers).is_ok(),
    reference: |job| fast::read(&job.sheet, &mut job.numbers).is_ok(),
};

const PLAN: Entry = Entry {
    name: "plan",
    library: |job| slopeboard::plan(&job.sheet, &mut job.bytes).is_ok(),
    reference: |job| fast::plan(&job.sheet, &mut job.bytes).is_ok(),
};

const CHECK: Entry = Entry {
    name: "check",
    library: |job| slopeboard::check(&job.sheet, &job.board).is_ok(),
    reference: |job| fast::check(&job.sheet, &job.board).is_ok(),
};

const LIST: Entry = Entry {
    name: "list",
    library: |job| slopeboard::list(&job.sheet, &mut job.bytes).is_ok(),
    reference: |job| fast::listing(&job.sheet, &mut job.bytes).is_ok(),
};

/// The planner beside one that makes no list of the open turns at each pick.
const PLAN_FREE: Entry = Entry {
    name: "plan f",
    library: |job| slopeboard::plan(&job.sheet, &mut job.bytes).is_ok(),
    reference: |job| fast::plan_without_list(&job.sheet, &mut job.bytes).is_ok(),
};

/// The entry whose time goes by the order of the turns.
const WRITE: Entry = Entry {
    name: "write",
    library: |job| slopeboard::write(job.groomers, job.slopes, &job.table, &mut job.bytes).is_ok(),
    reference: |job| fast::write(job.groomers, job.slopes, &job.table, &mut job.bytes).is_ok(),
};

/// The entry whose time goes by the groomers that it takes.
const ASSIGN: Entry = Entry {
    name: "assign",
    library: |job| slopeboard::assign(&job.sheet, &mut job.numbers).is_ok(),
    reference: |job| fast::assign(&job.sheet, &mut job.numbers).is_ok(),
};

/// The entry for sheets with one turn a slope.
const BEST: Entry = Entry {
    name: "best",
    library: |job| slopeboard::best(&job.sheet, &mut job.bytes).is_ok(),
    reference: |job| fast::best(&job.sheet, &mut job.bytes).is_ok(),
};

/// The entry that gives a limit by prices: about what a turn is worth on each
/// slope and turn.
const LIMIT: Entry = Entry {
    name: "limit",
    library: |job| slopeboard::limit(&job.sheet, &job.prices).is_ok(),
    reference: |job| fast::limit(&job.sheet, &job.prices).is_ok(),
};

/// Rounds that make a better board.
const BOARD_ROUNDS: u32 = 50;

/// The entry that makes a better board by rounds.
const REFINE: Entry = Entry {
    name: "refine",
    library: |job| {
        slopeboard::refine(&job.sheet, BOARD_ROUNDS, &mut job.bytes, &mut job.room).is_ok()
    },
    reference: |job| fast::refine(&job.sheet, BOARD_ROUNDS, &mut job.bytes, &mut job.room).is_ok(),
};

/// The most visits of the search.
const VISITS: u64 = 10_000;

/// The entry that looks for a better choice, on sheets that it does not get
/// through.
const IMPROVE: Entry = Entry {
    name: "improve",
    library: |job| slopeboard::improve(&job.sheet, VISITS, &mut job.bytes).is_ok(),
    reference: |job| fast::improve(&job.sheet, VISITS, &mut job.bytes).is_ok(),
};

/// The entry that draws sheets: from a seed of the job, with its counts.
const DRAW: Entry = Entry {
    name: "draw",
    library: |job| {
        let turns = (job.table.len() / NUMBERS_PER_TURN) as u32;
        slopeboard::draw(job.seed, job.groomers, job.slopes, turns, &mut job.bytes).is_ok()
    },
    reference: |job| {
        let turns = (job.table.len() / NUMBERS_PER_TURN) as u32;
        fast::draw(job.seed, job.groomers, job.slopes, turns, &mut job.bytes).is_ok()
    },
};

const KEEP: Entry = Entry {
    name: "keep",
    library: |job| slopeboard::keep(&job.sheet, &mut job.bytes).is_ok(),
    reference: |job| fast::keep(&job.sheet, &mut job.bytes).is_ok(),
};

const RESTORE: Entry = Entry {
    name: "restore",
    library: |job| slopeboard::restore(&job.kept, &mut job.bytes).is_ok(),
    reference: |job| fast::restore(&job.kept, &mut job.bytes).is_ok(),
};

/// Playing a board, beside a version that goes by the turns.
const PLAY: Entry = Entry {
    name: "play",
    library: |job| slopeboard::play(&job.sheet, &job.board, &job.delays, &mut job.list).is_ok(),
    reference: |job| fast::play(&job.sheet, &job.board, &job.delays, &mut job.other_list).is_ok(),
};

/// Playing a board, beside a version that goes by the minutes as the library does.
const PLAY_BY_MINUTE: Entry = Entry {
    name: "play o",
    library: |job| slopeboard::play(&job.sheet, &job.board, &job.delays, &mut job.list).is_ok(),
    reference: |job| {
        fast::play_by_minute(&job.sheet, &job.board, &job.delays, &mut job.other_list).is_ok()
    },
};

/// The entry for charging halls.
const CHARGE: Entry = Entry {
    name: "charge",
    library: |job| slopeboard::charge(&job.sheet, &mut job.bytes).is_ok(),
    reference: |job| fast::charge(&job.sheet, &mut job.bytes).is_ok(),
};

/// The hall's limit by prices.
const CHARGE_LIMIT: Entry = Entry {
    name: "charge l",
    library: |job| slopeboard::charge_limit(&job.sheet, &job.minutes).is_ok(),
    reference: |job| fast::charge_limit(&job.sheet, &job.minutes).is_ok(),
};

/// A better choice of windows by rounds.
const CHARGE_REFINE: Entry = Entry {
    name: "charge r",
    library: |job| {
        slopeboard::charge_refine(&job.sheet, BOARD_ROUNDS, &mut job.bytes, &mut job.room).is_ok()
    },
    reference: |job| {
        fast::charge_refine(&job.sheet, BOARD_ROUNDS, &mut job.bytes, &mut job.room).is_ok()
    },
};

/// Best and median time of one call, in nanoseconds.
#[derive(Clone, Copy, Default)]
struct Times {
    best: f64,
    median: f64,
}

impl Times {
    fn of(mut samples: Vec<f64>) -> Times {
        samples.sort_by(f64::total_cmp);
        Times {
            best: samples[0],
            median: samples[samples.len() / 2],
        }
    }
}

/// Time of one call, as the mean over all sheets, in nanoseconds.
fn round(call: fn(&mut Job) -> bool, jobs: &mut [Job]) -> f64 {
    let start = Instant::now();
    for job in &mut *jobs {
        assert!(call(black_box(job)), "an accepted sheet was refused");
    }
    start.elapsed().as_nanos() as f64 / jobs.len() as f64
}

/// How many rounds there are of each version.
fn rounds_for(versions: [fn(&mut Job) -> bool; 2], jobs: &mut [Job]) -> usize {
    let both = versions.map(|call| round(call, jobs) * jobs.len() as f64);
    let longer = both[0].max(both[1]).max(1.0);
    let rounds = (LASTING.as_nanos() as f64 / longer) as usize;
    rounds.clamp(ROUNDS[0], ROUNDS[1])
}

/// Times both versions by turns: the library's times and the reference's.
fn measure(entry: &Entry, jobs: &mut [Job]) -> [Times; 2] {
    let versions = [entry.library, entry.reference];
    let mut samples = [Vec::new(), Vec::new()];
    for number in 0..rounds_for(versions, jobs) {
        for place in 0..2 {
            // Neither is always the first of a round.
            let version = (number + place) % 2;
            samples[version].push(round(versions[version], jobs));
        }
    }
    samples.map(Times::of)
}

fn print_row(name: &str, label: &str, times: [Times; 2], growth: Option<f64>) {
    let [library, reference] = times;
    let micros = |time: f64| format!("{:.2}", time / 1000.0);
    let growth = growth.map_or(String::new(), |growth| format!("{growth:.2}"));
    println!(
        "{name:10}{label:20}{:>9}{:>10}{:>12}{:>10}{:>8.2}{growth:>8}",
        micros(library.best),
        micros(library.median),
        micros(reference.best),
        micros(reference.median),
        library.median / reference.median,
    );
}

/// Draws a shift with a number of turns, or a hall with a number of windows.
#[derive(Clone, Copy)]
enum Kind {
    Turns(fn(&mut Rng, usize) -> Shift),
    Windows(fn(&mut Rng, usize) -> Hall),
}

impl Kind {
    fn job(self, rng: &mut Rng, count: usize) -> Job {
        match self {
            Turns(kind) => {
                let shift = kind(rng, count);
                Job::of_shift(rng, &shift)
            }
            Windows(kind) => {
                let hall = kind(rng, count);
                Job::of_hall(rng, &hall)
            }
        }
    }
}

/// A drawn sheet of so many groomers and slopes; its turns are sorted.
fn drawn(rng: &mut Rng, turns: usize, [groomers, slopes]: [u8; 2]) -> Shift {
    let seed = 1 + u64::from(rng.below(2_147_483_646));
    let mut sheet = [0; slopeboard::MOST_SHEET_BYTES];
    let counts = (groomers.into(), slopes.into(), turns as u32);
    let len = fast::draw(seed, counts.0, counts.1, counts.2, &mut sheet);
    let sheet = &sheet[..len.expect("the counts are allowed")];
    let mut table = vec![[0; NUMBERS_PER_TURN]; turns];
    fast::read(sheet, table.as_flattened_mut()).expect("a drawn sheet is accepted");
    Shift {
        groomers,
        slopes,
        turns: table,
    }
}

/// As many groomers and slopes as on a usual night, the turns in any order.
fn usual_sheet(rng: &mut Rng, turns: usize) -> Shift {
    let shift = drawn(rng, turns, [12, 80]);
    shapes::shuffled(rng, &shift)
}

/// The usual sheet with drivers: somewhat more of them than groomers, most
/// turns with one.
fn driven_sheet(rng: &mut Rng, turns: usize) -> Shift {
    let mut shift = usual_sheet(rng, turns);
    for turn in &mut shift.turns {
        turn[5] = rng.below(16) as u16;
    }
    shift
}

/// The widest sheet with one of 12 drivers, or none, for each turn.
fn twelve_drivers(rng: &mut Rng, turns: usize) -> Shift {
    with_drivers(rng, turns, 12)
}

/// The same with as many drivers as there can be.
fn forty_drivers(rng: &mut Rng, turns: usize) -> Shift {
    with_drivers(rng, turns, 40)
}

fn with_drivers(rng: &mut Rng, turns: usize, drivers: u32) -> Shift {
    let mut shift = widest_shuffled(rng, turns);
    for turn in &mut shift.turns {
        turn[5] = rng.below(drivers + 1) as u16;
    }
    shift
}

/// Lengths up to five hours, so that many turns are going on at any time.
fn long_turns(rng: &mut Rng, turns: usize) -> Shift {
    shapes::drawn(rng, turns, [12, 80], [LAST_END, 1, 300], MOST_WORTH.into())
}

/// No two turns conflict: the search skips none.
fn all_apart(rng: &mut Rng, turns: usize) -> Shift {
    shapes::one_turn_a_slope(&shapes::a_step_a_turn(rng, turns, 119))
}

/// As many groomers and slopes as there can be, the turns as they are drawn.
fn widest_sheet(rng: &mut Rng, turns: usize) -> Shift {
    drawn(rng, turns, [16, 120])
}

/// The widest sheet with its turns in any order.
fn widest_shuffled(rng: &mut Rng, turns: usize) -> Shift {
    let shift = widest_sheet(rng, turns);
    shapes::shuffled(rng, &shift)
}

fn widest_falling(rng: &mut Rng, turns: usize) -> Shift {
    shapes::falling(&widest_sheet(rng, turns))
}

/// A step for each turn, on as many slopes as share no cycle with the
/// groomers, a driver of its own for each groomer, the turns in any order: the
/// most that planning, checking, listing and playing have to do.
fn most_steps(rng: &mut Rng, turns: usize) -> Shift {
    let mut shift = shapes::a_step_a_turn(rng, turns, 119);
    for turn in &mut shift.turns {
        turn[5] = turn[1];
    }
    shapes::shuffled(rng, &shift)
}

/// All turns on one slope, the worths rising with the ends: every step touches
/// all that is open.
fn one_slope(rng: &mut Rng, turns: usize) -> Shift {
    let shift = shapes::rising_on_one_slope(rng, turns);
    shapes::shuffled(rng, &shift)
}

fn equal_turns(rng: &mut Rng, turns: usize) -> Shift {
    shapes::shift(rng, shapes::ALL_EQUAL, turns)
}

/// Half of a record's values, at random, are those of the record before: no
/// map can be guessed from the last.
fn random_maps(rng: &mut Rng, turns: usize) -> Shift {
    let shift = driven_sheet(rng, turns);
    shapes::half_repeated(rng, &shift)
}

/// Six turns that come again and again with other worths.
fn other_worths(rng: &mut Rng, turns: usize) -> Shift {
    let kinds = widest_shuffled(rng, 6);
    let turn = |_| {
        let mut turn = rng.pick(&kinds.turns);
        turn[4] = rng.between(1, MOST_WORTH.into()) as u16;
        turn
    };
    Shift {
        turns: (0..turns).map(turn).collect(),
        ..kinds
    }
}

/// Turns of small values in any order, so that any value may be that of the
/// next turn too.
fn small_values(rng: &mut Rng, turns: usize) -> Shift {
    let mut shift = shapes::drawn(rng, turns, [3, 8], [40, 1, 8], 3);
    for turn in &mut shift.turns {
        turn[5] = rng.below(4) as u16;
    }
    shift
}

/// Sheets with one turn a slope, of many groomers or few.
fn single_of_16(rng: &mut Rng, turns: usize) -> Shift {
    one_turn_a_slope(rng, turns, 16, 90)
}

fn single_of_4(rng: &mut Rng, turns: usize) -> Shift {
    one_turn_a_slope(rng, turns, 4, 90)
}

/// One groomer, and turns that are up to five hours long, so that many are in
/// the way of one another.
fn single_of_1(rng: &mut Rng, turns: usize) -> Shift {
    one_turn_a_slope(rng, turns, 1, 300)
}

/// A shift with one turn a slope and no drivers: so many groomers, and lengths
/// up to so many minutes.
fn one_turn_a_slope(rng: &mut Rng, turns: usize, groomers: u8, longest: u32) -> Shift {
    let mut shift = widest_sheet(rng, turns);
    shift.groomers = groomers;
    for [_, groomer, start, length, ..] in &mut shift.turns {
        let minutes = rng.between(1, longest);
        *groomer = rng.between(1, groomers.into()) as u16;
        *start = rng.below(LAST_END + 1 - minutes) as u16;
        *length = minutes as u16;
    }
    shapes::simple(rng, &shift)
}

/// The rows of an entry: the sheets' kind, its name in the table, and sizes.
type Rows = (
    &'static Entry,
    &'static [(&'static str, Kind, &'static [usize])],
);

const ALL_SIZES: &[usize] = &[50, 100, 200, 400];

const TABLE: &[Rows] = &[
    (
        &READ,
        &[
            ("", Turns(usual_sheet), ALL_SIZES),
            ("w", Turns(widest_sheet), &[400]),
            ("d", Turns(driven_sheet), &[400]),
            ("maps", Turns(random_maps), &[400]),
        ],
    ),
    (
        &PLAN,
        &[
            ("", Turns(usual_sheet), ALL_SIZES),
            ("w", Turns(widest_sheet), &[400]),
            ("d", Turns(driven_sheet), &[400]),
            ("slope", Turns(one_slope), &[400]),
            ("steps", Turns(most_steps), &[400]),
        ],
    ),
    (
        &PLAN_FREE,
        &[
            ("", Turns(usual_sheet), &[400]),
            ("steps", Turns(most_steps), &[400]),
        ],
    ),
    (
        &CHECK,
        &[
            ("", Turns(usual_sheet), ALL_SIZES),
            ("w", Turns(widest_sheet), &[400]),
            ("d", Turns(driven_sheet), &[400]),
            ("slope", Turns(one_slope), &[400]),
            ("steps", Turns(most_steps), &[400]),
        ],
    ),
    (
        &LIST,
        &[
            ("", Turns(usual_sheet), ALL_SIZES),
            ("w", Turns(widest_sheet), &[400]),
            ("d", Turns(driven_sheet), &[400]),
            ("slope", Turns(one_slope), &[400]),
            ("steps", Turns(most_steps), &[400]),
        ],
    ),
    (
        &WRITE,
        &[
            ("sorted", Turns(widest_sheet), &[200, 400]),
            ("falling", Turns(widest_falling), &[400]),
            ("equal", Turns(equal_turns), &[400]),
            ("random", Turns(widest_shuffled), &[400]),
            ("few", Turns(shapes::few_kinds), &[400]),
            ("worths", Turns(other_worths), &[400]),
            ("small", Turns(small_values), &[400]),
        ],
    ),
    (&DRAW, &[("", Turns(widest_sheet), &[200, 400])]),
    (
        &KEEP,
        &[
            ("", Turns(usual_sheet), &[200, 400]),
            ("maps", Turns(random_maps), &[400]),
        ],
    ),
    (
        &RESTORE,
        &[
            ("", Turns(usual_sheet), &[200, 400]),
            ("maps", Turns(random_maps), &[400]),
        ],
    ),
    (
        &ASSIGN,
        &[
            ("", Turns(usual_sheet), &[200, 400]),
            ("w", Turns(widest_sheet), &[400]),
            ("equal", Turns(equal_turns), &[400]),
            ("long", Turns(long_turns), &[400]),
        ],
    ),
    (
        &BEST,
        &[
            ("k=16", Turns(single_of_16), &[60, 120]),
            ("k=4", Turns(single_of_4), &[120]),
            ("k=1", Turns(single_of_1), &[120]),
        ],
    ),
    (
        &LIMIT,
        &[
            ("", Turns(usual_sheet), &[200, 400]),
            ("w", Turns(widest_sheet), &[400]),
            ("d", Turns(driven_sheet), &[400]),
            ("d=12", Turns(twelve_drivers), &[400]),
            ("d=40", Turns(forty_drivers), &[400]),
        ],
    ),
    (
        &REFINE,
        &[
            ("", Turns(usual_sheet), &[200, 400]),
            ("w", Turns(widest_sheet), &[400]),
            ("d", Turns(driven_sheet), &[400]),
            ("d=12", Turns(twelve_drivers), &[400]),
            ("d=40", Turns(forty_drivers), &[400]),
        ],
    ),
    (
        &IMPROVE,
        &[
            ("", Turns(usual_sheet), &[16, 32, 64]),
            ("apart", Turns(all_apart), &[64]),
        ],
    ),
    (
        &PLAY,
        &[
            ("", Turns(usual_sheet), &[200, 400]),
            ("w", Turns(widest_sheet), &[400]),
            ("steps", Turns(most_steps), &[400]),
        ],
    ),
    (&PLAY_BY_MINUTE, &[("steps", Turns(most_steps), &[400])]),
    (
        &CHARGE,
        &[
            ("", Windows(halls::usual), &[200, 400]),
            ("small", Windows(halls::small_draws), &[400]),
            ("together", Windows(halls::all_together), &[400]),
            ("one", Windows(halls::one_from_all), &[400]),
        ],
    ),
    (&CHARGE_LIMIT, &[("", Windows(halls::usual), &[200, 400])]),
    (
        &CHARGE_REFINE,
        &[
            ("", Windows(halls::usual), &[200, 400]),
            ("small", Windows(halls::small_draws), &[400]),
            ("together", Windows(halls::all_together), &[400]),
            ("one", Windows(halls::one_from_all), &[400]),
        ],
    ),
];

/// The number of turns or windows, the mean of the steps, and the kind. A hall
/// has no board, and so no steps.
fn label(jobs: &[Job], kind: &str) -> String {
    let count = jobs[0].numbers.len() / NUMBERS_PER_TURN;
    let steps = jobs.iter().map(Job::steps).sum::<usize>() / jobs.len();
    let label = match steps {
        0 => format!("n={count} {kind}"),
        _ => format!("n={count} m={steps} {kind}"),
    };
    label.trim_end().to_string()
}

/// A row that was measured.
struct Measured {
    label: String,
    times: [Times; 2],
    growth: Option<f64>,
}

/// Measures an entry on sheets of one kind, at each of these sizes.
fn measured(entry: &Entry, kind: Kind, name: &str, sizes: &[usize]) -> Vec<Measured> {
    let mut rng = Rng::new(7);
    let mut before: Option<f64> = None;
    let row = |count: &usize| {
        let mut jobs: Vec<Job> = (0..SHEETS).map(|_| kind.job(&mut rng, *count)).collect();
        let times = measure(entry, &mut jobs);
        let median = times[0].median;
        let growth = before.replace(median).map(|before| median / before);
        Measured {
            label: label(&jobs, name),
            times,
            growth,
        }
    };
    sizes.iter().map(row).collect()
}

fn main() {
    let named: Vec<String> = env::args().skip(1).collect();
    let wanted = |name: &str| named.is_empty() || named.iter().any(|word| word == name);
    println!("times of one call in microseconds, over {SHEETS} sheets; n is the number of turns or windows, m of steps;");
    println!("*: the slowest row of an entry by the library's best;");
    println!("12 groomers and 80 slopes; w: 16 groomers, 120 slopes, sorted; k: number of groomers; d: with drivers;");
    println!("d=12, d=40: 16 groomers, 120 slopes, 12 or 40 drivers; slope: all turns on one; steps: one for each turn;");
    println!("long: turns of up to five hours;");
    println!("improve: at most {VISITS} visits, apart: no two turns conflict; refine, charge r: at most {BOARD_ROUNDS} rounds;");
    println!("plan f: the reference makes no list at each pick;");
    println!("write few: six kinds of turns, nearly equal by pairs; worths: six kinds but for the worths;");
    println!("write small: small values, slower than all tables known that are not made to be slow to sort;");
    println!("play: the reference goes by the turns; play o: minute by minute as the library does, its peer;");
    println!("charge l: the hall's limit, charge r: its rounds; small: small draws, together: and all windows overlap,");
    println!("one: and each step takes 1 from every open window");
    println!("                              library             reference");
    println!(
        "entry     sheet                    best    median        best    median   ratio  growth"
    );
    for (entry, kinds) in TABLE.iter().filter(|(entry, _)| wanted(entry.name)) {
        let rows = kinds
            .iter()
            .flat_map(|(name, kind, sizes)| measured(entry, *kind, name, sizes));
        let rows: Vec<Measured> = rows.collect();
        let best = |row: &Measured| row.times[0].best;
        let slowest = rows.iter().map(best).fold(0.0, f64::max);
        for row in &rows {
            let mark = if best(row) == slowest { " *" } else { "" };
            print_row(
                entry.name,
                &format!("{}{mark}", row.label),
                row.times,
                row.growth,
            );
        }
    }
}
