//! Turns, the ranges of their values, and when two of them conflict.

#[derive(Clone, Copy, Debug, PartialEq, Eq)]
pub struct Turn {
    pub slope: u32,
    pub groomer: u32,
    pub start: u32,
    pub length: u32,
    pub worth: u32,
    /// 0 if the turn names no driver.
    pub driver: u32,
}

impl Turn {
    /// The turn with these values: slope, groomer, start, length, worth,
    /// driver.
    pub fn new(values: [u32; 6]) -> Turn {
        let [slope, groomer, start, length, worth, driver] = values;
        Turn {
            slope,
            groomer,
            start,
            length,
            worth,
            driver,
        }
    }

    pub fn values(&self) -> [u32; 6] {
        [
            self.slope,
            self.groomer,
            self.start,
            self.length,
            self.worth,
            self.driver,
        ]
    }

    pub fn end(&self) -> u32 {
        self.start + self.length
    }

    /// Whether the turn is under way in this minute. In the minute of its end
    /// it is not.
    pub fn holds(&self, minute: u32) -> bool {
        self.start <= minute && minute < self.end()
    }
}

/// The turns of a turn table, six numbers each.
pub fn turns_of(table: &[u16]) -> Vec<Turn> {
    let rows = table.chunks(6);
    rows.map(|row| Turn::new([0, 1, 2, 3, 4, 5].map(|field| u32::from(row[field]))))
        .collect()
}

/// Refusal 3: the groomers, or the slopes, are none or too many.
pub fn judge_counts(groomers: u32, slopes: u32) -> Result<(), u8> {
    if !(1..=16).contains(&groomers) || !(1..=120).contains(&slopes) {
        return Err(3);
    }
    Ok(())
}

/// Refusals 6 to 9 and then 19: a value of the turn outside its range, in
/// their order.
pub fn judge_turn(turn: &Turn, groomers: u32, slopes: u32) -> Result<(), u8> {
    if turn.slope == 0 || turn.slope > slopes {
        return Err(6);
    }
    if turn.groomer == 0 || turn.groomer > groomers {
        return Err(7);
    }
    if turn.length == 0 || turn.end() > 960 {
        return Err(8);
    }
    if turn.worth == 0 || turn.worth > 60_000 {
        return Err(9);
    }
    if turn.driver > 40 {
        return Err(19);
    }
    Ok(())
}

/// Whether there is a minute that both turns hold.
pub fn share_a_minute(a: &Turn, b: &Turn) -> bool {
    (a.start..a.end()).any(|minute| b.holds(minute))
}

/// Whether the second turn's end is followed by the first's start with fewer
/// than ten minutes between.
pub fn starts_soon_after(a: &Turn, b: &Turn) -> bool {
    (0..=9).any(|minutes| a.start == b.end() + minutes)
}

/// Whether one groomer, or one driver, cannot do both turns: they share a minute, or one of
/// them starts too soon after the other for driving over.
pub fn too_close(a: &Turn, b: &Turn) -> bool {
    share_a_minute(a, b) || starts_soon_after(a, b) || starts_soon_after(b, a)
}

/// Whether both turns name a driver, and the same one.
pub fn same_driver(a: &Turn, b: &Turn) -> bool {
    a.driver != 0 && a.driver == b.driver
}

/// Whether the turns have the same groomer and too little time between them.
pub fn too_close_on_groomer(a: &Turn, b: &Turn) -> bool {
    a.groomer == b.groomer && too_close(a, b)
}

/// Whether the turns have the same driver and too little time between them.
pub fn too_close_on_driver(a: &Turn, b: &Turn) -> bool {
    same_driver(a, b) && too_close(a, b)
}

/// Whether the turns with these numbers conflict: they are two, on one slope,
/// or of one groomer or driver with too little time between them.
pub fn conflict(turns: &[Turn], a: usize, b: usize) -> bool {
    let (x, y) = (&turns[a], &turns[b]);
    let on_slope = x.slope == y.slope;
    a != b && (on_slope || too_close_on_groomer(x, y) || too_close_on_driver(x, y))
}
