//! A limit by prices.

use super::refusal;
use super::sheet::{no_turns, parse};
use super::turns::{first_places, Turn};
use crate::limits::{DRIVE_OVER, LAST_END, MOST_DRIVER, MOST_GROOMERS, MOST_TURNS};

/// As many places as a power of two, and more than turns.
const PLACES: usize = (MOST_TURNS + 1).next_power_of_two();

/// A number for each place.
type Column<T> = [T; PLACES];

/// Room for the slopes' prices; any byte is a place in it.
pub type SlopePrices = [i32; 256];

/// The limit of a sheet at these prices.
pub fn limit(sheet: &[u8], prices: &[u16]) -> Result<u32, u8> {
    let mut turns = no_turns();
    let header = parse(sheet, &mut turns)?;
    let turns = &turns[..usize::from(header.turns)];
    let slopes = usize::from(header.slopes);
    if prices.len() != slopes + turns.len() {
        return Err(refusal::BAD_PRICES);
    }
    Ok(limit_at(turns, slopes, prices))
}

/// The limit of turns at prices of the right number.
pub fn limit_at(turns: &[Turn], slopes: usize, prices: &[u16]) -> u32 {
    let (of_slopes, of_turns) = prices.split_at(slopes);
    let rounds = Rounds::new(turns);
    let mut slope_prices = [0; 256];
    for (place, &price) in slope_prices[1..].iter_mut().zip(of_slopes) {
        *place = price.into();
    }
    let mut sums = [0; PLACES];
    let mut sum = 0;
    for (place, &number) in rounds.named().iter().enumerate() {
        sum += i32::from(of_turns[usize::from(number)]);
        sums[place + 1] = sum;
    }
    rounds.look(&slope_prices, &sums, &mut Relaxed::none())
}

/// What of a sheet no price changes. Its turns stand in two orders: one groomer
/// behind the other, each groomer's by end and number; and those that name a
/// driver one driver behind the other, each driver's by end and number.
pub struct Rounds {
    count: usize,
    /// By place in the groomers' order: the turn's number, slope and worth.
    numbers: Column<u16>,
    slopes: Column<u8>,
    worths: Column<i32>,
    /// How many places before it stay free if the turn is taken, those of the
    /// groomers before its own included.
    before: Column<u16>,
    /// The stretch of the drivers' order whose prices the turn pays. All these
    /// turns end from ten minutes before its start up to its own end, and so
    /// stand side by side.
    from: Column<u16>,
    to: Column<u16>,
    /// By place in the drivers' order: the turn's number.
    named: Column<u16>,
    named_count: usize,
}

/// The places of the turns that a look takes, in the groomers' order.
pub struct Relaxed {
    places: Column<u16>,
    count: usize,
}

impl Relaxed {
    pub fn none() -> Relaxed {
        Relaxed {
            places: [0; PLACES],
            count: 0,
        }
    }

    pub fn places(&self) -> impl Iterator<Item = usize> + '_ {
        let places = self.places[..self.count].iter();
        places.map(|&place| usize::from(place))
    }
}

impl Rounds {
    pub fn new(turns: &[Turn]) -> Rounds {
        let mut rounds = Rounds {
            count: turns.len(),
            numbers: [0; PLACES],
            slopes: [0; PLACES],
            worths: [0; PLACES],
            before: [0; PLACES],
            from: [0; PLACES],
            to: [0; PLACES],
            named: [0; PLACES],
            named_count: 0,
        };
        let mut by_end = [0; PLACES];
        let by_end = &mut by_end[..turns.len()];
        let mut places = first_places::<{ LAST_END as usize + 1 }>(turns, |turn| turn.end() as u16);
        for (number, turn) in (0..).zip(turns) {
            by_end[next(&mut places, turn.end() as usize)] = number;
        }
        let drivers = rounds.put_drivers(turns, by_end);
        rounds.put_groomers(turns, by_end, &drivers);
        rounds
    }

    /// Puts the turns that name a driver in their order, and gives the first
    /// place of each driver, and of the one behind the last.
    fn put_drivers(&mut self, turns: &[Turn], by_end: &[u16]) -> DriverPlaces {
        let all = first_places::<{ MOST_DRIVER as usize + 2 }>(turns, |turn| turn.driver);
        // Driver 0 is none: the first place is that of driver 1.
        let firsts = all.map(|place| place.saturating_sub(all[1]));
        let mut places = firsts;
        for &number in by_end {
            let driver = turns[usize::from(number)].driver;
            if driver != 0 {
                self.named[next(&mut places, driver.into())] = number;
            }
        }
        self.named_count = firsts[firsts.len() - 1].into();
        firsts
    }

    fn put_groomers(&mut self, turns: &[Turn], by_end: &[u16], drivers: &DriverPlaces) {
        let firsts = first_places::<{ MOST_GROOMERS as usize + 1 }>(turns, |turn| turn.groomer);
        let mut places = firsts;
        // The ends of each groomer's turns so far, and of all drivers' turns.
        let mut ends = [0; PLACES];
        let mut named_ends = [0; PLACES];
        for (end, &number) in named_ends.iter_mut().zip(self.named()) {
            *end = turns[usize::from(number)].end() as u16;
        }
        for &number in by_end {
            let turn = &turns[usize::from(number)];
            let place = next(&mut places, turn.groomer.into());
            let first = usize::from(firsts[usize::from(turn.groomer)]);
            self.numbers[place] = number;
            // At most 120.
            self.slopes[place] = turn.slope as u8;
            self.worths[place] = turn.worth.into();
            ends[place] = turn.end() as u16;
            let is_free = |&end: &u16| end + DRIVE_OVER as u16 <= turn.start;
            let free = ends[first..place].partition_point(is_free);
            self.before[place] = (first + free) as u16;
            if turn.driver != 0 {
                let driver = usize::from(turn.driver);
                let first = usize::from(drivers[driver]);
                let own = &named_ends[first..usize::from(drivers[driver + 1])];
                let not_later = |&end: &u16| u32::from(end) <= turn.end();
                self.from[place] = (first + own.partition_point(is_free)) as u16;
                self.to[place] = (first + own.partition_point(not_later)) as u16;
            }
        }
    }

    /// The numbers of the turns that name a driver, in the drivers' order.
    pub fn named(&self) -> &[u16] {
        &self.named[..self.named_count]
    }

    pub fn number(&self, place: usize) -> usize {
        self.numbers[place].into()
    }

    pub fn slope(&self, place: usize) -> usize {
        self.slopes[place].into()
    }

    /// The stretch of the drivers' order whose prices the turn pays.
    pub fn stretch(&self, place: usize) -> (usize, usize) {
        (self.from[place].into(), self.to[place].into())
    }

    /// Puts other worths in, by turn number.
    pub fn put_worths(&mut self, worth: impl Fn(usize) -> u16) {
        let places = self.worths.iter_mut().zip(&self.numbers);
        for (place, &number) in places.take(self.count) {
            *place = worth(number.into()).into();
        }
    }

    /// The limit at these prices: those of the slopes by number, and the sums
    /// from the front of those in the drivers' order, the first being 0. Leaves
    /// the turns taken.
    pub fn look(&self, slopes: &SlopePrices, sums: &Column<i32>, relaxed: &mut Relaxed) -> u32 {
        // By number of places: the most that these count for, and the last of
        // them that is taken for it, counted from 1.
        let mut table = [0; PLACES];
        let mut lasts = [0u16; PLACES];
        let (mut most, mut last) = (0, 0);
        for place in 0..self.count % PLACES {
            let (from, to) = self.stretch(place);
            // The remainders spare tests of the index.
            let paid = slopes[self.slope(place)] + sums[to % PLACES] - sums[from % PLACES];
            let counts = (self.worths[place] - paid).max(0);
            let with = table[usize::from(self.before[place]) % PLACES] + counts;
            // Without branches: they could not be predicted.
            last = if with > most { place as u16 + 1 } else { last };
            most = most.max(with);
            table[(place + 1) % PLACES] = most;
            lasts[(place + 1) % PLACES] = last;
        }
        let mut count = 0;
        while last != 0 {
            let place = last - 1;
            relaxed.places[count % PLACES] = place;
            count += 1;
            let before = self.before[usize::from(place) % PLACES];
            last = lasts[usize::from(before) % PLACES];
        }
        relaxed.count = count;
        let prices: i32 = slopes.iter().sum();
        (prices + sums[self.named_count % PLACES] + most) as u32
    }
}

/// By driver, the first place in the drivers' order.
type DriverPlaces = [u16; MOST_DRIVER as usize + 2];

/// The next free place of this value, which is then taken.
fn next(places: &mut [u16], value: usize) -> usize {
    let place = &mut places[value];
    *place += 1;
    usize::from(*place) - 1
}
