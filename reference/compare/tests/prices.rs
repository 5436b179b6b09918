//! The stored cases of `tests/prices`: the library and the judge give what the
//! files say.

use slopeboard::Refusal;
use slopeboard_reference::naive;
use std::collections::BTreeMap;
use std::fs;

/// The lines of a case by their first word.
struct Case {
    name: String,
    lines: BTreeMap<String, String>,
}

impl Case {
    fn line(&self, word: &str) -> Option<&str> {
        self.lines.get(word).map(String::as_str)
    }

    fn number(&self, word: &str) -> Option<u32> {
        self.line(word).map(number)
    }

    /// The sheet's bytes: as they stand, or as the judge draws them.
    fn sheet(&self) -> Vec<u8> {
        let Some(line) = self.line("draw") else {
            return bytes(self.line("sheet").expect("a case has a sheet"));
        };
        let numbers: Vec<u32> = line.split_whitespace().map(number).collect();
        let &[seed, groomers, slopes, turns] = &numbers[..] else {
            panic!("{}: {line}", self.name);
        };
        let mut sheet = vec![0; slopeboard::MOST_SHEET_BYTES];
        let len = naive::draw(seed.into(), groomers, slopes, turns, &mut sheet);
        sheet.truncate(len.expect("a sheet is drawn"));
        sheet
    }

    /// A price list, if there is one.
    fn prices(&self) -> Option<Vec<u16>> {
        let words = self.line("prices")?.split_whitespace();
        let some = words.flat_map(|word| match word.split_once('*') {
            Some((times, price)) => vec![number(price); number(times)],
            None => vec![number(word)],
        });
        Some(some.collect())
    }

    /// Whether what came out is what the case says: a refusal, or these numbers.
    fn holds<const N: usize>(&self, found: Result<[(&str, u32); N], u8>) {
        let name = &self.name;
        let refusal = found.err().map(u32::from);
        assert_eq!(self.number("refused"), refusal, "{name}: refused");
        for (word, value) in found.into_iter().flatten() {
            assert_eq!(self.number(word), Some(value), "{name}: {word}");
        }
    }
}

fn number<T: std::str::FromStr>(word: &str) -> T {
    word.parse()
        .unwrap_or_else(|_| panic!("{word} is no number"))
}

fn bytes(hex: &str) -> Vec<u8> {
    let digits: Vec<char> = hex.chars().filter(|sign| !sign.is_whitespace()).collect();
    let pairs = digits.chunks(2).map(|pair| pair.iter().collect::<String>());
    pairs
        .map(|pair| u8::from_str_radix(&pair, 16).expect("two digits"))
        .collect()
}

/// The cases of a file. Each says who worked it out, which the library never did.
fn cases(entry: &str) -> Vec<Case> {
    let path = format!(
        "{}/../../tests/prices/{entry}.txt",
        env!("CARGO_MANIFEST_DIR")
    );
    let text = fs::read_to_string(&path).expect("the cases are stored");
    let mut cases: Vec<Case> = Vec::new();
    for line in text
        .lines()
        .filter(|line| !line.is_empty() && !line.starts_with('#'))
    {
        let (word, rest) = line.split_once(' ').unwrap_or((line, ""));
        if word == "case" {
            cases.push(Case {
                name: format!("{entry}: {rest}"),
                lines: BTreeMap::new(),
            });
            continue;
        }
        let case = cases.last_mut().expect("a case comes first");
        let before = case.lines.insert(word.to_owned(), rest.to_owned());
        assert_eq!(before, None, "{}: {word} twice", case.name);
    }
    for case in &cases {
        assert!(
            matches!(case.line("by"), Some("hand" | "naive")),
            "{}",
            case.name
        );
    }
    cases
}

/// Each list gives the same limit in both versions, which is the case's.
fn limits(
    entry: &str,
    naive: fn(&[u8], &[u16]) -> Result<u32, u8>,
    library: fn(&[u8], &[u16]) -> Result<u32, Refusal>,
) {
    for case in cases(entry) {
        let (sheet, prices) = (case.sheet(), case.prices().expect("a case has prices"));
        let library = library(&sheet, &prices).map_err(Refusal::number);
        for limit in [naive(&sheet, &prices), library] {
            case.holds(limit.map(|limit| [("limit", limit)]));
        }
    }
}

#[test]
fn limit() {
    limits("limit", naive::limit, slopeboard::limit);
}

#[test]
fn charge_limit() {
    limits(
        "charge_limit",
        naive::charge_limit,
        slopeboard::charge_limit,
    );
}

/// What is written beside the answer: bytes and prices.
type Written = (Vec<u8>, Vec<u16>);

/// Worth, limit and rounds made, by the words of a case.
fn figures(worth: u32, limit: u32, rounds: u32) -> [(&'static str, u32); 3] {
    [("worth", worth), ("limit", limit), ("made", rounds)]
}

/// Makes the rounds of a case in both versions, which must write the same. Each is
/// lent as much as it asks for; cases with less are in the folder's `stdin`.
fn both<T>(
    case: &Case,
    enough: [usize; 2],
    naive: impl Fn(&mut [u8], &mut [u16]) -> T,
    library: impl Fn(&mut [u8], &mut [u16]) -> T,
) -> ([T; 2], Written) {
    let fresh = || (vec![0xA5; enough[0]], vec![0xA5A5; enough[1]]);
    let (mut ours, mut theirs) = (fresh(), fresh());
    let answers = [
        naive(&mut ours.0, &mut ours.1),
        library(&mut theirs.0, &mut theirs.1),
    ];
    assert_eq!(ours, theirs, "{}", case.name);
    if let Some(prices) = case.prices() {
        assert_eq!(theirs.1, prices, "{}: prices", case.name);
    }
    (answers, theirs)
}

#[test]
fn refine() {
    for case in cases("refine") {
        let (sheet, rounds) = (case.sheet(), case.number("rounds").expect("rounds"));
        let turns = usize::from(u16::from_be_bytes([sheet[5], sheet[6]]));
        let enough = [
            slopeboard::board_bytes(turns),
            usize::from(sheet[4]) + turns,
        ];
        let naive = |board: &mut [u8], prices: &mut [u16]| {
            let found = naive::refine(&sheet, rounds, board, prices)?;
            Ok((found.bytes, figures(found.worth, found.limit, found.rounds)))
        };
        let library = |board: &mut [u8], prices: &mut [u16]| {
            let found = slopeboard::refine(&sheet, rounds, board, prices);
            let found = found.map_err(Refusal::number)?;
            Ok((found.bytes, figures(found.worth, found.limit, found.rounds)))
        };
        let (answers, (board, _)) = both(&case, enough, naive, library);
        assert_eq!(answers[0], answers[1], "{}", case.name);
        for answer in answers {
            case.holds(answer.map(|(_, figures)| figures));
        }
        let (len, _) = answers[1].expect("the sheet is accepted");
        if let Some(line) = case.line("board") {
            assert_eq!(board[..len], bytes(line), "{}: board", case.name);
        }
        let sums = slopeboard::check(&sheet, &board[..len]).expect("the board passes");
        assert_eq!(Some(sums.worth), case.number("worth"), "{}", case.name);
        let mut plan = vec![0; board.len()];
        let len = slopeboard::plan(&sheet, &mut plan).expect("the sheet is accepted");
        let plan = slopeboard::check(&sheet, &plan[..len]).expect("the plan passes");
        for (word, sum) in [("planned", plan.worth), ("ceiling", plan.ceiling)] {
            assert_eq!(
                sum,
                case.number(word).unwrap_or(sum),
                "{}: {word}",
                case.name
            );
        }
    }
}

#[test]
fn charge_refine() {
    for case in cases("charge_refine") {
        let (sheet, rounds) = (case.sheet(), case.number("rounds").expect("rounds"));
        let windows = usize::from(u16::from_be_bytes([sheet[5], sheet[6]]));
        let enough = [slopeboard::map_bytes(windows), slopeboard::MINUTES];
        let naive = |map: &mut [u8], prices: &mut [u16]| {
            let found = naive::charge_refine(&sheet, rounds, map, prices)?;
            Ok(figures(found.worth, found.limit, found.rounds))
        };
        let library = |map: &mut [u8], prices: &mut [u16]| {
            let found = slopeboard::charge_refine(&sheet, rounds, map, prices);
            let found = found.map_err(Refusal::number)?;
            Ok(figures(found.worth, found.limit, found.rounds))
        };
        let (answers, (map, _)) = both(&case, enough, naive, library);
        for answer in answers {
            case.holds(answer);
        }
        if let Some(line) = case.line("map") {
            assert_eq!(map, bytes(line), "{}: map", case.name);
        }
        if let Some(planned) = case.number("planned") {
            let plan = slopeboard::charge(&sheet, &mut vec![0; map.len()]);
            assert_eq!(plan, Ok(planned), "{}", case.name);
        }
    }
}
