//! Comparing two calls that write into lent places: bytes, 16-bit numbers, or
//! the standings of groomers.

use std::fmt::Debug;

use slopeboard_reference::gen::Rng;

use crate::foreign::{
    AssignAnswer, BestAnswer, ChargeAnswer, ChargeRefineAnswer, ImproveAnswer, PlayAnswer,
    RefineAnswer, Standing, WriteAnswer,
};
use crate::report::{show, Report};

/// Places before and after the lent ones that must stay as they are.
const GUARD: usize = 32;

/// What a place holds: a byte, a 16-bit number or a standing.
pub trait Place: Copy + PartialEq {
    /// Adds as many places as the noise fills.
    fn add(places: &mut Vec<Self>, noise: u64);
}

impl Place for u8 {
    fn add(places: &mut Vec<u8>, noise: u64) {
        places.extend(noise.to_be_bytes());
    }
}

impl Place for u16 {
    fn add(places: &mut Vec<u16>, noise: u64) {
        places.extend([0, 16, 32, 48].map(|by| (noise >> by) as u16));
    }
}

impl Place for Standing {
    fn add(places: &mut Vec<Standing>, noise: u64) {
        let [working, driving, standing, turn] = [0, 16, 32, 48].map(|by| (noise >> by) as u16);
        places.push(Standing {
            working,
            driving,
            standing,
            turn,
        });
    }
}

/// What a call gives beside the places that it writes.
pub trait Answer: PartialEq + Debug {
    fn refusal(&self) -> u8;
}

impl Answer for WriteAnswer {
    fn refusal(&self) -> u8 {
        self.refusal
    }
}

impl Answer for AssignAnswer {
    fn refusal(&self) -> u8 {
        self.refusal
    }
}

impl Answer for BestAnswer {
    fn refusal(&self) -> u8 {
        self.refusal
    }
}

impl Answer for ImproveAnswer {
    fn refusal(&self) -> u8 {
        self.refusal
    }
}

impl Answer for PlayAnswer {
    fn refusal(&self) -> u8 {
        self.refusal
    }
}

impl Answer for ChargeAnswer {
    fn refusal(&self) -> u8 {
        self.refusal
    }
}

impl Answer for RefineAnswer {
    fn refusal(&self) -> u8 {
        self.refusal
    }
}

impl Answer for ChargeRefineAnswer {
    fn refusal(&self) -> u8 {
        self.refusal
    }
}

/// Two equal stretches of noise, one for each version, with the lent places in
/// the middle of each.
#[derive(Default)]
pub struct Lent<P> {
    ours: Vec<P>,
    theirs: Vec<P>,
    before: Vec<P>,
}

impl<P: Place> Lent<P> {
    /// Makes both calls, the judge's and the library's, with so many lent
    /// places; the input is known to them. The answers and everything in and
    /// around the lent places must agree; on a refusal, all of it must be as
    /// before. Gives the judge's answer.
    pub fn compare<A: Answer>(
        &mut self,
        rng: &mut Rng,
        report: &mut Report,
        calls: (impl Fn(&mut [P]) -> A, impl Fn(&mut [P]) -> A),
        room: usize,
        input: &[u8],
    ) -> A {
        self.fill(rng, room);
        let lent = GUARD..GUARD + room;
        let ours = calls.0(&mut self.ours[lent.clone()]);
        let theirs = calls.1(&mut self.theirs[lent]);
        report.count(ours.refusal());
        if ours != theirs {
            report.differs(|| format!("{ours:?} but {theirs:?}: {}", show(input, room)));
        } else if let Some(fault) = self.fault(ours.refusal()) {
            report.differs(|| format!("{fault}: {}", show(input, room)));
        }
        ours
    }

    /// The same for calls that write to places of two kinds, so many of each.
    pub fn compare_with<Q: Place, A: Answer>(
        &mut self,
        other: &mut Lent<Q>,
        rng: &mut Rng,
        report: &mut Report,
        calls: (
            impl Fn(&mut [P], &mut [Q]) -> A,
            impl Fn(&mut [P], &mut [Q]) -> A,
        ),
        rooms: [usize; 2],
        input: &[u8],
    ) -> A {
        self.fill(rng, rooms[0]);
        other.fill(rng, rooms[1]);
        let [lent, more] = rooms.map(|room| GUARD..GUARD + room);
        let ours = calls.0(&mut self.ours[lent.clone()], &mut other.ours[more.clone()]);
        let theirs = calls.1(&mut self.theirs[lent], &mut other.theirs[more]);
        report.count(ours.refusal());
        let text = |fault: String| format!("{fault}, {rooms:?}: {}", show(input, rooms[0]));
        if ours != theirs {
            report.differs(|| text(format!("{ours:?} but {theirs:?}")));
        } else if let Some(fault) = self.fault(ours.refusal()) {
            report.differs(|| text(fault));
        } else if let Some(fault) = other.fault(ours.refusal()) {
            report.differs(|| text(format!("second places, {fault}")));
        }
        ours
    }

    /// What is wrong with the places after two calls with this refusal, if
    /// something is.
    fn fault(&self, refusal: u8) -> Option<String> {
        if let Some(place) = first_difference(&self.ours, &self.theirs) {
            let place = place as isize - GUARD as isize;
            return Some(format!("at place {place}"));
        }
        let wrote = refusal != 0 && self.theirs != self.before;
        wrote.then(|| String::from("a refusal wrote"))
    }

    /// What the judge wrote at the front of its lent places.
    pub fn written(&self, places: usize) -> &[P] {
        &self.ours[GUARD..GUARD + places]
    }

    fn fill(&mut self, rng: &mut Rng, room: usize) {
        self.before.clear();
        while self.before.len() < room + 2 * GUARD {
            P::add(&mut self.before, rng.draw());
        }
        self.before.truncate(room + 2 * GUARD);
        self.ours.clone_from(&self.before);
        self.theirs.clone_from(&self.before);
    }
}

/// The judge's number of bytes in the form that the library gives.
pub fn answer(result: Result<usize, u8>) -> WriteAnswer {
    match result {
        Ok(len) => WriteAnswer {
            refusal: 0,
            bytes: len as u32,
        },
        Err(refusal) => WriteAnswer { refusal, bytes: 0 },
    }
}

fn first_difference<P: Place>(ours: &[P], theirs: &[P]) -> Option<usize> {
    ours.iter().zip(theirs).position(|(a, b)| a != b)
}
