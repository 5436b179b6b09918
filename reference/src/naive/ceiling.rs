//! The ceiling of a board's steps: no set of turns in which no two conflict
//! is worth more.

use super::planning::{take, touched, worths};
use super::turns::{too_close_on_driver, too_close_on_groomer, Turn};

/// The three groups of turns around a step's turn J.
#[derive(Clone, Copy)]
enum Group {
    Slope,
    Groomer,
    Driver,
}

const GROUPS: [Group; 3] = [Group::Slope, Group::Groomer, Group::Driver];

/// Whether the turn is in this group of J's: it is of J's slope, or it
/// conflicts with J by groomer, or by driver. J is in each group.
fn is_in(turns: &[Turn], group: Group, j: usize, turn: usize) -> bool {
    let (a, b) = (&turns[turn], &turns[j]);
    let with_j = match group {
        Group::Slope => a.slope == b.slope,
        Group::Groomer => too_close_on_groomer(a, b),
        Group::Driver => too_close_on_driver(a, b),
    };
    turn == j || with_j
}

/// The fewest groups that together hold all turns which a step for J touches.
/// Every choice of groups is tried.
pub fn fewest_groups(turns: &[Turn], left: &[i64], j: usize) -> i64 {
    let touched = touched(turns, left, j);
    let mut fewest = 3;
    for choice in 0..8 {
        let is_chosen = |group: &Group| choice >> *group as usize & 1 == 1;
        let groups: Vec<Group> = GROUPS.into_iter().filter(is_chosen).collect();
        let is_held = |turn| groups.iter().any(|&group| is_in(turns, group, j, turn));
        if touched.iter().all(|&turn| is_held(turn)) {
            fewest = fewest.min(groups.len() as i64);
        }
    }
    fewest
}

/// The amounts added up, each times the least number of groups that cover
/// what its step takes from.
pub fn ceiling(turns: &[Turn], steps: &[(usize, i64)]) -> i64 {
    let mut left = worths(turns);
    let mut ceiling = 0;
    for &(j, amount) in steps {
        ceiling += amount * fewest_groups(turns, &left, j);
        take(turns, &mut left, j, amount);
    }
    ceiling
}
