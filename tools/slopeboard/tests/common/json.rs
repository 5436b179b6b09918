//! A reader of JSON that takes no more than the program writes: whole numbers,
//! texts, true, false, null, lists and objects.

/// Whether the text is one JSON value and a line feed.
pub fn is_json(text: &str) -> bool {
    text.strip_suffix('\n').and_then(value) == Some("")
}

/// What is left behind the value at the front.
fn value(text: &str) -> Option<&str> {
    match text.as_bytes().first()? {
        b'{' => members(&text[1..], '}', |rest| {
            value(quoted(rest)?.strip_prefix(':')?)
        }),
        b'[' => members(&text[1..], ']', value),
        b'"' => quoted(text),
        b'0'..=b'9' => Some(text.trim_start_matches(|sign: char| sign.is_ascii_digit())),
        _ => ["true", "false", "null"]
            .iter()
            .find_map(|word| text.strip_prefix(word)),
    }
}

fn members(text: &str, end: char, member: fn(&str) -> Option<&str>) -> Option<&str> {
    if let Some(rest) = text.strip_prefix(end) {
        return Some(rest);
    }
    let mut rest = member(text)?;
    while let Some(more) = rest.strip_prefix(',') {
        rest = member(more)?;
    }
    rest.strip_prefix(end)
}

fn quoted(text: &str) -> Option<&str> {
    let mut signs = text.strip_prefix('"')?.char_indices();
    while let Some((place, sign)) = signs.next() {
        match sign {
            '"' => return Some(&text[place + 2..]),
            '\\' => drop(signs.next()?),
            sign if sign < ' ' => return None,
            _ => {}
        }
    }
    None
}
