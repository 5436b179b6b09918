//! Counts what happened to an entry's inputs and judges the whole run.

use std::collections::BTreeMap;
use std::sync::atomic::{AtomicBool, Ordering};
use std::sync::Mutex;

/// Highest refusal number.
const LAST_REFUSAL: usize = 26;

/// How often each refusal that an entry can give must have been seen.
const LEAST_IN_BIN: u64 = 200;

/// How many inputs an entry's run must have at the least.
const LEAST_INPUTS: u64 = 100_000;

/// How many of a hundred inputs must be accepted ones.
const LEAST_ACCEPTED: u64 = 45;

/// How many differences are printed in full.
const SHOWN: u64 = 5;

/// Inputs by refusal.
type Bins = [u64; LAST_REFUSAL + 1];

/// Of all runs so far, by entry.
static TOTALS: Mutex<BTreeMap<&str, Bins>> = Mutex::new(BTreeMap::new());

/// Whether a run that was good prints nothing.
static SHORT: AtomicBool = AtomicBool::new(false);

/// From now on a run prints its faults alone.
pub fn be_short() {
    SHORT.store(true, Ordering::Relaxed);
}

/// Prints how many inputs all runs had.
pub fn print_totals() {
    let totals = TOTALS.lock().expect("nothing fails while it is held");
    for (entry, bins) in totals.iter() {
        println!("{entry}: {} inputs", bins.iter().sum::<u64>());
        print_bins(entry, bins);
    }
}

fn print_bins(entry: &str, bins: &Bins) {
    for (number, count) in bins.iter().enumerate() {
        if number == 0 || *count > 0 {
            println!("{entry}: refusal {number:2}: {count:7}");
        }
    }
}

pub struct Report {
    entry: &'static str,
    bins: Bins,
    /// Named properties of inputs that must occur, with their counts.
    properties: Vec<(&'static str, u64)>,
    differences: u64,
}

impl Report {
    pub fn new(entry: &'static str) -> Report {
        Report {
            entry,
            bins: [0; LAST_REFUSAL + 1],
            properties: Vec::new(),
            differences: 0,
        }
    }

    /// Counts an input under the judge's refusal, 0 if it is accepted.
    pub fn count(&mut self, refusal: u8) {
        self.bins[usize::from(refusal)] += 1;
    }

    /// Counts whether an input has a property that the run must cover.
    pub fn property(&mut self, name: &'static str, holds: bool) {
        let hits = u64::from(holds);
        match self.properties.iter_mut().find(|(known, _)| *known == name) {
            Some((_, count)) => *count += hits,
            None => self.properties.push((name, hits)),
        }
    }

    /// Notes a difference; only the first few are spelt out.
    pub fn differs(&mut self, text: impl FnOnce() -> String) {
        self.differences += 1;
        if self.differences <= SHOWN {
            println!("{}: DIFFERENCE {}", self.entry, text());
        }
    }

    /// Prints the counts and says whether the run was good. Each of the
    /// refusals must have been seen often enough.
    pub fn finish(self, refusals: impl IntoIterator<Item = u8>) -> bool {
        let entry = self.entry;
        self.add_to_totals();
        let short = SHORT.load(Ordering::Relaxed);
        if !short {
            print_bins(entry, &self.bins);
            for (name, count) in &self.properties {
                println!("{entry}: {name}: {count}");
            }
        }
        let faults = self.faults(refusals);
        for fault in &faults {
            println!("compare: FAILED {entry}: {fault}");
        }
        if faults.is_empty() && !short {
            let (inputs, accepted) = (self.inputs(), self.bins[0]);
            println!("compare: {entry} {inputs} inputs, {accepted} accepted, 0 differences");
        }
        faults.is_empty()
    }

    fn add_to_totals(&self) {
        let mut totals = TOTALS.lock().expect("nothing fails while it is held");
        let sums = totals.entry(self.entry).or_insert([0; LAST_REFUSAL + 1]);
        for (sum, count) in sums.iter_mut().zip(self.bins) {
            *sum += count;
        }
    }

    fn inputs(&self) -> u64 {
        self.bins.iter().sum()
    }

    fn faults(&self, refusals: impl IntoIterator<Item = u8>) -> Vec<String> {
        let mut faults = Vec::new();
        if self.differences > 0 {
            faults.push(format!("{} differences", self.differences));
        }
        for number in refusals {
            let count = self.bins[usize::from(number)];
            if count < LEAST_IN_BIN {
                faults.push(format!("refusal {number} seen only {count} times"));
            }
        }
        for (name, count) in &self.properties {
            if *count < LEAST_IN_BIN {
                faults.push(format!("{name} seen only {count} times"));
            }
        }
        let (inputs, accepted) = (self.inputs(), self.bins[0]);
        if inputs < LEAST_INPUTS {
            faults.push(format!("only {inputs} inputs"));
        }
        if accepted * 100 < inputs * LEAST_ACCEPTED {
            faults.push(format!("only {accepted} of {inputs} inputs accepted"));
        }
        faults
    }
}

/// An input in a form that can be typed in again.
pub fn show(input: &[u8], places: usize) -> String {
    let mut text = format!("{places} places, {} bytes:", input.len());
    for byte in input.iter().take(60) {
        text.push_str(&format!(" {byte:02X}"));
    }
    if input.len() > 60 {
        text.push_str(" ...");
    }
    text
}
