//! Lists of prices as text.

use crate::clock;
use crate::csv;
use crate::failure::{gather, Failure, Fault};
use crate::files::Input;
use slopeboard::Refusal;
use std::fmt::Write;

/// Reads a list: numbers with blanks or ends of lines between them.
pub fn read(input: &Input) -> Result<Vec<u16>, Failure> {
    let lines = (1..).zip(csv::text(input)?.lines());
    let words =
        lines.flat_map(|(number, line)| line.split_whitespace().map(move |word| (number, word)));
    gather(words.map(|(number, word)| {
        clock::number(word)
            .and_then(|price| u16::try_from(price).ok())
            .ok_or_else(|| {
                let words = format!("'{word}' is not a price, which is 0 to {}", u16::MAX);
                Fault::in_line(input, number, words)
            })
    }))
}

/// Text that [`read`] takes: a line for each price.
pub fn text(prices: &[u16]) -> String {
    let mut text = String::new();
    for price in prices {
        let _ = writeln!(text, "{price}");
    }
    text
}

/// The library refused a list for its length, where so many prices are wanted,
/// one for each of these.
pub fn refused(
    input: &Input,
    prices: &[u16],
    wanted: usize,
    each: &str,
    refusal: Refusal,
) -> Failure {
    let count = prices.len();
    Failure::from(Fault {
        file: Some(input.name.clone()),
        line: None,
        refusal: Some(refusal),
        words: format!("{count} prices, where {wanted} are wanted, one for each {each}"),
    })
}
