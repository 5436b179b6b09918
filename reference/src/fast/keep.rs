//! The kept form of a sheet: its fields by column.

use super::refusal;
use super::sheet::{fields_len, map_fits, no_turns, parse, parse_header, MAGIC};
use super::sheet::{HEADER_LEN, MOST_LEN};
use super::turns::Turn;
use crate::limits::{MOST_TURNS, NUMBERS_PER_TURN};

const KEPT_MAGIC: [u8; 3] = *b"GRC";

/// Bytes of each field.
const WIDTHS: [usize; NUMBERS_PER_TURN] = [1, 1, 2, 2, 2, 1];

/// Writes the kept form of a sheet, which is as long as the sheet, and gives
/// its length.
pub fn keep(sheet: &[u8], kept: &mut [u8]) -> Result<usize, u8> {
    let header = parse(sheet, &mut no_turns())?;
    let kept = kept.get_mut(..sheet.len());
    let kept = kept.ok_or(refusal::BUFFER_TOO_SMALL)?;
    let turns = usize::from(header.turns);
    kept[..3].copy_from_slice(&KEPT_MAGIC);
    kept[3..HEADER_LEN].copy_from_slice(&sheet[3..HEADER_LEN]);
    let (maps, columns) = kept[HEADER_LEN..].split_at_mut(turns);
    let mut at = HEADER_LEN;
    for map in maps.iter_mut() {
        *map = sheet[at];
        at += 1 + fields_len(*map);
    }
    let mut places = column_starts(maps);
    let mut at = HEADER_LEN;
    for &map in maps.iter() {
        at += 1;
        for_each_field(map, |field| {
            let (place, width) = (&mut places[field], WIDTHS[field]);
            columns[*place..*place + width].copy_from_slice(&sheet[at..at + width]);
            *place += width;
            at += width;
        });
    }
    Ok(sheet.len())
}

/// Writes the sheet of a kept form and gives its length.
pub fn restore(kept: &[u8], sheet: &mut [u8]) -> Result<usize, u8> {
    let (header, rest) = parse_header(kept, KEPT_MAGIC)?;
    let turns = usize::from(header.turns);
    if turns > MOST_TURNS {
        return Err(refusal::TOO_MANY_TURNS);
    }
    let (maps, columns) = rest.split_at_checked(turns).ok_or(refusal::TRUNCATED)?;
    if !maps_fit(maps) {
        return Err(refusal::BAD_MAP);
    }
    let wanted = maps.iter().map(|&map| fields_len(map)).sum();
    if columns.len() < wanted {
        return Err(refusal::TRUNCATED);
    }
    if columns.len() > wanted {
        return Err(refusal::TRAILING_BYTES);
    }
    let (groomers, slopes) = (u32::from(header.groomers), u32::from(header.slopes));
    let mut built = [0; MOST_LEN];
    built[..3].copy_from_slice(&MAGIC);
    built[3..HEADER_LEN].copy_from_slice(&kept[3..HEADER_LEN]);
    let mut places = column_starts(maps);
    let mut values = [0; NUMBERS_PER_TURN];
    let mut at = HEADER_LEN;
    for &map in maps {
        built[at] = map;
        at += 1;
        for_each_field(map, |field| {
            let (place, width) = (&mut places[field], WIDTHS[field]);
            let bytes = &columns[*place..*place + width];
            values[field] = bytes
                .iter()
                .fold(0, |value, &byte| value << 8 | u16::from(byte));
            built[at..at + width].copy_from_slice(bytes);
            *place += width;
            at += width;
        });
        Turn::of(&values).judge(groomers, slopes)?;
    }
    let place = sheet.get_mut(..at).ok_or(refusal::BUFFER_TOO_SMALL)?;
    place.copy_from_slice(&built[..at]);
    Ok(at)
}

/// Whether each map can stand where it does.
fn maps_fit(maps: &[u8]) -> bool {
    let Some((&first, later)) = maps.split_first() else {
        return true;
    };
    map_fits(first, true) && later.iter().all(|&map| map_fits(map, false))
}

/// Where each field's column begins behind the maps.
fn column_starts(maps: &[u8]) -> [usize; NUMBERS_PER_TURN] {
    let mut sizes = [0; NUMBERS_PER_TURN];
    for &map in maps {
        for (field, size) in sizes.iter_mut().enumerate() {
            *size += WIDTHS[field] * usize::from(map >> field & 1);
        }
    }
    let mut start = 0;
    sizes.map(|size| {
        start += size;
        start - size
    })
}

/// Goes through the fields that a map names, the lowest first.
fn for_each_field(map: u8, mut run: impl FnMut(usize)) {
    let mut left = map;
    while left != 0 {
        run(left.trailing_zeros() as usize);
        left &= left - 1;
    }
}
