//! How close a better board by rounds and its limit are expected to come, on
//! drawn sheets of seven kinds, for whichever version makes the rounds.

use crate::naive::draw::{length_of, next};
use crate::naive::write;

/// A kind of sheet: groomers, slopes, turns; the highest number of a driver, 0 if
/// none is named; the greatest worth.
pub struct Kind {
    pub counts: [u32; 3],
    pub drivers: u32,
    pub worth: u32,
    /// The least that worth by limit may be after 100 rounds, on each sheet.
    floor: f64,
    /// On how many of the sheets from seeds 101 to 120 board and limit meet:
    /// without weights and mending, and with them.
    meet: [usize; 2],
}

const fn kind(counts: [u32; 3], drivers: u32, worth: u32, floor: f64, meet: [usize; 2]) -> Kind {
    Kind {
        counts,
        drivers,
        worth,
        floor,
        meet,
    }
}

/// With 12 drivers about one sheet in fifty is below 0.96, however the drivers
/// are drawn: that of seed 13 is at 0.946.
pub const KINDS: [Kind; 7] = [
    kind([16, 120, 400], 0, 60_000, 0.96, [20, 20]),
    kind([4, 40, 200], 0, 60_000, 0.96, [13, 13]),
    kind([8, 60, 400], 0, 60_000, 0.96, [13, 13]),
    kind([16, 120, 400], 40, 60_000, 0.96, [3, 3]),
    kind([16, 120, 400], 12, 60_000, 0.94, [0, 0]),
    kind([8, 60, 400], 0, 150, 0.96, [9, 15]),
    kind([2, 20, 64], 0, 60_000, 0.96, [13, 13]),
];

impl Kind {
    /// A sheet drawn from a seed as the library draws them. Where drivers are
    /// named a sixth draw gives each turn's, none among them.
    pub fn drawn(&self, seed: u64) -> Vec<u8> {
        let [groomers, slopes, turns] = self.counts;
        let mut number = seed;
        let mut below = |bound: u32| {
            number = next(number);
            (number % u64::from(bound)) as u16
        };
        let mut table = Vec::new();
        for _ in 0..turns {
            table.extend([1 + below(slopes), 1 + below(groomers), below(841)]);
            table.push(length_of(below(100).into()) as u16);
            table.push(1 + below(self.worth));
            table.push(match self.drivers {
                0 => 0,
                drivers => below(drivers + 1),
            });
        }
        let mut sheet = vec![0; 4007];
        let len = write(groomers, slopes, &table, &mut sheet).expect("what is drawn is accepted");
        sheet.truncate(len);
        sheet
    }

    pub fn name(&self) -> String {
        let ([groomers, slopes, turns], worth) = (self.counts, self.worth);
        let drivers = self.drivers;
        format!("{groomers} groomers, {slopes} slopes, {turns} turns, {drivers} drivers, worths to {worth}")
    }
}

/// Worth by limit of each sheet.
struct Ratios(Vec<f64>);

impl Ratios {
    /// Of what so many rounds come to: worth and limit.
    fn of(sheets: &[Vec<u8>], rounds: u32, refine: &impl Fn(&[u8], u32) -> (u32, u32)) -> Ratios {
        let ratio = |sheet: &Vec<u8>| {
            let (worth, limit) = refine(sheet, rounds);
            f64::from(worth) / f64::from(limit)
        };
        Ratios(sheets.iter().map(ratio).collect())
    }

    fn mean(&self) -> f64 {
        self.0.iter().sum::<f64>() / self.0.len() as f64
    }

    fn least(&self) -> f64 {
        self.0.iter().copied().fold(1.0, f64::min)
    }

    fn met(&self) -> usize {
        self.0.iter().filter(|&&ratio| ratio == 1.0).count()
    }
}

/// Takes twenty sheets of each kind, seeds 1 to 20, prints the means of worth by
/// limit and on how many sheets the two meet, and fails if they are not as close
/// after 100 rounds as they should be.
pub fn come_close(refine: impl Fn(&[u8], u32) -> (u32, u32)) {
    let (mut without, mut with) = (Ratios(Vec::new()), Ratios(Vec::new()));
    for kind in &KINDS {
        let sheets: Vec<Vec<u8>> = (1..=20).map(|seed| kind.drawn(seed)).collect();
        let [none, twenty, fifty, hundred] =
            [0, 20, 50, 100].map(|rounds| Ratios::of(&sheets, rounds, &refine));
        println!(
            "{}: worth / limit {:.4} (0 rounds), {:.4} (20), {:.4} (50), {:.4} (100); least {:.4}; \
             they meet on {} of 20",
            kind.name(),
            none.mean(),
            twenty.mean(),
            fifty.mean(),
            hundred.mean(),
            hundred.least(),
            hundred.met(),
        );
        assert!(hundred.least() >= kind.floor, "{}", kind.name());
        match kind.drivers {
            0 => without.0.extend(hundred.0),
            _ => with.0.extend(hundred.0),
        }
    }
    let (without, with) = (without.mean(), with.mean());
    println!("all without drivers {without:.4}, all with drivers {with:.4}");
    assert!(without >= 0.995 && with >= 0.98, "{without} {with}");
}

/// Takes twenty sheets of each kind, seeds 101 to 120, and fails if board and limit
/// meet on more or fewer of them than expected after 100 rounds without weights and
/// mending. Which draws give the drivers is not known there, so that those kinds are
/// only printed.
pub fn meet_as_expected(refine: impl Fn(&[u8], u32) -> (u32, u32)) {
    KINDS.iter().for_each(|kind| kind.meets(0, &refine));
}

/// The same with weights and mending.
pub fn meet_as_expected_with_mending(refine: impl Fn(&[u8], u32) -> (u32, u32)) {
    KINDS.iter().for_each(|kind| kind.meets(1, &refine));
}

/// Fails if the search does not prove the best board on all of these sheets that
/// name no driver, with 100 rounds and 1,000 looks.
pub fn proved_as_expected(is_proved: impl Fn(&[u8], u32, u32) -> bool) {
    for kind in KINDS.iter().filter(|kind| kind.drivers == 0) {
        let proved = |seed: &u64| is_proved(&kind.drawn(*seed), 100, 1000);
        assert_eq!((101..=120).filter(proved).count(), 20, "{}", kind.name());
    }
}

impl Kind {
    fn meets(&self, way: usize, refine: &impl Fn(&[u8], u32) -> (u32, u32)) {
        let sheets: Vec<Vec<u8>> = (101..=120).map(|seed| self.drawn(seed)).collect();
        let met = Ratios::of(&sheets, 100, refine).met();
        let (name, expected) = (self.name(), self.meet[way]);
        println!("{name}: they meet on {met} of 20, expected {expected}");
        assert!(self.drivers != 0 || met == expected, "{name}");
    }
}
