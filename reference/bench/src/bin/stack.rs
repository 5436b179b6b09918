//! Prints how much stack each exported function needs, in bytes, as the header
//! has it, read off the compiled library: the arguments that are not in
//! registers, its own frame with the return address,
//! and the deepest of the library's functions below it, with what that one
//! writes below the stack pointer. What memcpy, memmove and memset need beyond
//! their return address comes on top. It fails where it cannot tell: at a call
//! through a pointer, at a stack pointer that is moved by an unknown number, and
//! at functions that call themselves to no depth given here.
//!
//! ```text
//! SLOPEBOARD_LIB_DIR=$PWD/crates/slopeboard_c/out cargo run --release -p bench --bin stack
//! ```

use std::collections::{BTreeMap, BTreeSet};
use std::env;
use std::process::{Command, ExitCode};

#[derive(Default)]
struct Function {
    /// Bytes that it takes itself, with the address it returns to.
    frame: usize,
    /// Bytes that it uses below the stack pointer; the ABI grants 128.
    below: usize,
    /// The functions whose addresses it uses.
    callees: Vec<String>,
}

/// The name in a line that begins a function: `0000000000000000 <name>:`.
fn begun(line: &str) -> Option<&str> {
    let (place, name) = line.split_once(" <")?;
    let hex = !place.is_empty() && place.bytes().all(|byte| byte.is_ascii_hexdigit());
    hex.then_some(name.strip_suffix(">:")?)
}

/// The bytes that an instruction takes from the stack.
fn taken(line: &str) -> usize {
    let mut words = line.split_whitespace().skip(1);
    match (words.next(), words.next()) {
        (Some("push"), Some(_)) => 8,
        (Some("sub"), Some(operands)) => operands
            .strip_suffix(",%rsp")
            .and_then(|value| value.strip_prefix("$0x"))
            .and_then(|digits| usize::from_str_radix(digits, 16).ok())
            .unwrap_or(0),
        _ => 0,
    }
}

/// The bytes that a loop takes from the stack page by page: a large frame, down to
/// where `%r11` was put by this instruction and the one before it.
fn taken_by_pages(before: &str, line: &str) -> usize {
    let operands = |line: &str, word: &str| {
        let mut words = line.split_whitespace().skip(1);
        (words.next() == Some(word)).then(|| words.next().unwrap_or_default().to_string())
    };
    if operands(before, "mov").as_deref() != Some("%rsp,%r11") {
        return 0;
    }
    operands(line, "sub")
        .and_then(|both| Some(both.strip_suffix(",%r11")?.strip_prefix("$0x")?.to_string()))
        .and_then(|digits| usize::from_str_radix(&digits, 16).ok())
        .unwrap_or(0)
}

/// The bytes below the stack pointer that an instruction uses.
fn used_below(line: &str) -> usize {
    let Some((front, _)) = line.split_once("(%rsp") else {
        return 0;
    };
    let Some((_, digits)) = front.rsplit_once("-0x") else {
        return 0;
    };
    usize::from_str_radix(digits, 16).unwrap_or(0)
}

/// The function that a relocation names, if it names one.
fn named(line: &str) -> Option<String> {
    let (_, rest) = line.split_once("R_X86_64_")?;
    let symbol = rest.split_whitespace().nth(1)?;
    let symbol = symbol.strip_prefix(".text.").unwrap_or(symbol);
    let end = symbol.find(['-', '+']).unwrap_or(symbol.len());
    Some(symbol[..end].to_string())
}

/// Where an instruction goes that calls or jumps: `call 7d <name>`, and
/// `call 7d <name+0x7d>` where a relocation has the name. A call of a function
/// in the same section has no relocation.
fn target(line: &str) -> Option<(&str, Option<&str>)> {
    let mut words = line.split_whitespace().skip(1);
    let word = words.next()?;
    if word != "call" && !word.starts_with('j') {
        return None;
    }
    let name = line
        .split_once(" <")
        .and_then(|(_, rest)| rest.strip_suffix('>'));
    Some((word, name))
}

/// Whether an instruction moves the stack pointer in a way that [`taken`] does
/// not count. Taking back and comparing is nothing.
fn moved_otherwise(line: &str) -> bool {
    let back = ["add", "pop", "cmp"]
        .iter()
        .any(|word| line.split_whitespace().nth(1) == Some(word));
    line.trim_end().ends_with(",%rsp") && taken(line) == 0 && !back
}

/// The functions of a listing by name, or the line that cannot be counted.
fn functions(listing: &str) -> Result<BTreeMap<String, Function>, String> {
    let mut found: BTreeMap<String, Function> = BTreeMap::new();
    let mut name = String::new();
    let mut before = "";
    let mut by_pages = false;
    for line in listing.lines() {
        if let Some(next) = begun(line) {
            name = next.to_string();
            found.entry(name.clone()).or_default().frame = 8;
        } else if let Some(function) = found.get_mut(&name) {
            // What the loop's own instruction takes is a part of what it takes in all.
            if taken(line) == 0 || !std::mem::take(&mut by_pages) {
                function.frame += taken(line);
            }
            let pages = taken_by_pages(before, line);
            function.frame += pages;
            by_pages |= pages > 0;
            function.below = function.below.max(used_below(line));
            function.callees.extend(named(line));
            match target(line) {
                // An offset is a place in this function, or a relocation follows.
                Some((_, Some(place))) if place.contains("+0x") => {}
                // Back to its own start by a jump is a loop.
                Some((word, Some(callee))) if word == "call" || callee != name => {
                    function.callees.push(callee.to_string());
                }
                Some((_, None)) => return Err(format!("{name} goes through a pointer: {line}")),
                _ if moved_otherwise(line) => return Err(format!("{name} has {line}")),
                _ => {}
            }
        }
        before = line;
    }
    Ok(found)
}

/// How many levels of a function that calls itself, or of functions that call
/// each other in a circle with it, can stand above one another.
const DEPTHS: &[(&str, usize)] = &[
    // The search comes to at most 64 turns, one level deeper for each that it
    // takes, and once past the last.
    ("improve::search::without", 64 + 1),
];

/// The functions that can be called, one by the other, from this one.
fn reached(found: &BTreeMap<String, Function>, name: &str) -> BTreeSet<String> {
    let mut reached = BTreeSet::new();
    let mut next = vec![name.to_string()];
    while let Some(name) = next.pop() {
        for callee in found.get(&name).map_or(&[][..], |known| &known.callees) {
            if reached.insert(callee.clone()) {
                next.push(callee.clone());
            }
        }
    }
    reached
}

/// The functions that call this one again, one by the other, after it has
/// called them, and itself.
fn circle(found: &BTreeMap<String, Function>, name: &str) -> BTreeSet<String> {
    let mut circle = reached(found, name);
    circle.retain(|other| reached(found, other).contains(name));
    circle.insert(name.to_string());
    circle
}

/// How many levels a circle has. One that calls nothing of itself has one.
fn levels(found: &BTreeMap<String, Function>, circle: &BTreeSet<String>) -> Result<usize, String> {
    if !circle
        .iter()
        .any(|name| reached(found, name).contains(name))
    {
        return Ok(1);
    }
    let given = DEPTHS.iter().find(|(name, _)| circle.contains(*name));
    given
        .map(|(_, depth)| *depth)
        .ok_or_else(|| format!("no depth is given for {circle:?}"))
}

/// What a function needs with all below it. Each function of a circle counts
/// for every level.
fn need(found: &BTreeMap<String, Function>, name: &str) -> Result<usize, String> {
    if !found.contains_key(name) {
        // The address that a function of the C library returns to; other names are of data.
        return Ok(if name.starts_with("mem") { 8 } else { 0 });
    }
    let circle = circle(found, name);
    let in_circle = || circle.iter().map(|name| &found[name]);
    let frames: usize = in_circle().map(|function| function.frame).sum();
    let mut deepest = in_circle()
        .map(|function| function.below)
        .max()
        .unwrap_or(0);
    let callees = in_circle().flat_map(|function| &function.callees);
    for callee in callees.filter(|callee| !circle.contains(*callee)) {
        deepest = deepest.max(need(found, callee)?);
    }
    Ok(levels(found, &circle)? * frames + deepest)
}

/// Bytes of the arguments that the caller puts on the stack, since six go into
/// registers: playing has eight; refining has seven, and a place for its answer
/// where that is too long for registers.
fn arguments(name: &str) -> usize {
    match name {
        "slopeboard_play" | "slopeboard_refine" => 16,
        "slopeboard_charge_refine" => 8,
        _ => 0,
    }
}

/// The lines of the header.
fn lines(archive: &str) -> Result<Vec<String>, String> {
    let output = Command::new("objdump")
        .args(["-dr", "--no-show-raw-insn", archive])
        .output()
        .map_err(|_| "objdump is not installed")?;
    let found = functions(&String::from_utf8_lossy(&output.stdout))?;
    if let Some((name, _)) = DEPTHS
        .iter()
        .find(|(name, _)| !reached(&found, name).contains(*name))
    {
        return Err(format!("{name} does not call itself in {archive}"));
    }
    let exported = found.keys().filter(|name| name.starts_with("slopeboard_"));
    let line = |name: &String| {
        let need = need(&found, name)? + arguments(name);
        let name = name.replace("slopeboard_", "SLOPEBOARD_STACK_");
        Ok(format!("#define {} {need}", name.to_uppercase()))
    };
    exported.map(line).collect()
}

fn main() -> ExitCode {
    let folder = env::var("SLOPEBOARD_LIB_DIR").unwrap_or_else(|_| "crates/slopeboard_c/out".to_string());
    match lines(&format!("{folder}/libslopeboard.a")) {
        Ok(lines) => {
            lines.iter().for_each(|line| println!("{line}"));
            ExitCode::SUCCESS
        }
        Err(fault) => {
            eprintln!("stack: {fault}");
            ExitCode::FAILURE
        }
    }
}
