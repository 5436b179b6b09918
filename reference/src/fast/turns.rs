//! Turns, their limits, and which of them may stand on a board together.

use super::refusal;
use crate::limits::{
    DRIVE_OVER, LAST_END, MOST_DRIVER, MOST_GROOMERS, MOST_SLOPES, MOST_WORTH, NUMBERS_PER_TURN,
};

/// One turn; the fields stand in the order of the turn table.
#[derive(Clone, Copy, Debug, Default, PartialEq, Eq)]
pub struct Turn {
    pub slope: u16,
    pub groomer: u16,
    pub start: u16,
    pub length: u16,
    pub worth: u16,
    /// 0 for none.
    pub driver: u16,
}

impl Turn {
    /// The turn in one row of a turn table.
    pub fn of(row: &[u16]) -> Turn {
        Turn {
            slope: row[0],
            groomer: row[1],
            start: row[2],
            length: row[3],
            worth: row[4],
            driver: row[5],
        }
    }

    pub fn fields(&self) -> [u16; NUMBERS_PER_TURN] {
        [
            self.slope,
            self.groomer,
            self.start,
            self.length,
            self.worth,
            self.driver,
        ]
    }

    /// First minute after the turn. Wider than the fields, because a turn
    /// that is yet to be judged may end far past any shift.
    pub fn end(&self) -> u32 {
        u32::from(self.start) + u32::from(self.length)
    }

    /// Whether the turns need one groomer or one driver.
    pub fn share_groomer_or_driver(&self, other: &Turn) -> bool {
        (self.groomer == other.groomer) | ((self.driver == other.driver) & (self.driver != 0))
    }

    /// Whether the two turns have one groomer or one driver, and it could not
    /// be driven from one to the other in time.
    fn too_close(&self, other: &Turn) -> bool {
        self.share_groomer_or_driver(other) & self.is_close(other)
    }

    /// Whether neither turn leaves the time to drive over to the other.
    fn is_close(&self, other: &Turn) -> bool {
        (u32::from(self.start) < other.end() + DRIVE_OVER)
            & (u32::from(other.start) < self.end() + DRIVE_OVER)
    }

    /// Whether the two turns exclude each other. True for a turn and itself:
    /// callers that mean two different turns compare numbers first, the
    /// others rely on it.
    pub fn conflicts(&self, other: &Turn) -> bool {
        (self.slope == other.slope) | self.too_close(other)
    }

    /// Judges the turn's values, slope first and driver last.
    pub fn judge(&self, groomers: u32, slopes: u32) -> Result<(), u8> {
        if self.slope == 0 || u32::from(self.slope) > slopes {
            return Err(refusal::BAD_SLOPE);
        }
        if self.groomer == 0 || u32::from(self.groomer) > groomers {
            return Err(refusal::BAD_GROOMER);
        }
        if self.length == 0 || self.end() > LAST_END {
            return Err(refusal::BAD_TIME);
        }
        if self.worth == 0 || self.worth > MOST_WORTH {
            return Err(refusal::BAD_WORTH);
        }
        if self.driver > MOST_DRIVER {
            return Err(refusal::BAD_DRIVER);
        }
        Ok(())
    }
}

/// Judges the two counts of a sheet's header.
pub fn judge_counts(groomers: u32, slopes: u32) -> Result<(), u8> {
    let groomers_fit = (1..=MOST_GROOMERS).contains(&groomers);
    let slopes_fit = (1..=MOST_SLOPES).contains(&slopes);
    if groomers_fit && slopes_fit {
        Ok(())
    } else {
        Err(refusal::BAD_COUNTS)
    }
}

/// By value, how many turns have a lesser one.
pub fn first_places<const VALUES: usize>(
    turns: &[Turn],
    value: impl Fn(&Turn) -> u16,
) -> [u16; VALUES] {
    let mut places = [0; VALUES];
    for turn in turns {
        places[usize::from(value(turn))] += 1;
    }
    let mut sum = 0;
    for place in &mut places {
        sum += *place;
        *place = sum - *place;
    }
    places
}

/// Chosen turns without a conflict among them, all of them judged before.
/// There is room for one turn a slope, which is as many as can ever be free
/// of conflict.
pub struct Selection {
    /// By slope number; most turns that do not fit fail on this.
    slope_taken: [bool; MOST_SLOPES as usize + 1],
    turns: [Turn; MOST_SLOPES as usize],
    count: usize,
}

impl Selection {
    pub fn new() -> Selection {
        Selection {
            slope_taken: [false; MOST_SLOPES as usize + 1],
            turns: [Turn::default(); MOST_SLOPES as usize],
            count: 0,
        }
    }

    /// Whether the turn is in conflict with no chosen one. A turn already
    /// chosen does not fit again, since it shares its own slope.
    pub fn fits(&self, turn: &Turn) -> bool {
        let busy = |other: &Turn| other.too_close(turn);
        !self.slope_taken[usize::from(turn.slope)] && !self.chosen().iter().any(busy)
    }

    /// Adds the turn if it fits and says whether it did.
    pub fn add(&mut self, turn: &Turn) -> bool {
        let fits = self.fits(turn);
        if fits {
            self.slope_taken[usize::from(turn.slope)] = true;
            self.turns[self.count] = *turn;
            self.count += 1;
        }
        fits
    }

    /// What the selection is worth: at most 120 times 60,000.
    pub fn worth(&self) -> u32 {
        self.chosen().iter().map(|turn| u32::from(turn.worth)).sum()
    }

    fn chosen(&self) -> &[Turn] {
        &self.turns[..self.count]
    }
}

impl Default for Selection {
    fn default() -> Self {
        Selection::new()
    }
}
