//! The kept form of a sheet: its records taken apart, a column for each field.

use super::sheet::{accept, put, WIDTHS};
use super::turns::{judge_counts, judge_turn, Turn};
use super::{bit, lend, number};

/// A record as it stands in a sheet: its map, and the bytes of each field,
/// none where the field's bit is clear.
struct Record {
    map: u8,
    fields: [Vec<u8>; 6],
}

/// Writes the kept form of a sheet and gives its length. After the sheet's
/// refusals 11.
pub fn keep(sheet: &[u8], out: &mut [u8]) -> Result<usize, u8> {
    let turns = accept(sheet)?.turns.len();
    let records = records_of(&sheet[7..], turns);
    let mut kept = vec![0x47, 0x52, 0x43];
    kept.extend(&sheet[3..7]);
    for record in &records {
        kept.push(record.map);
    }
    for field in 0..6 {
        for record in &records {
            kept.extend(&record.fields[field]);
        }
    }
    lend(&kept, out)
}

/// The records of an accepted sheet.
fn records_of(bytes: &[u8], turns: usize) -> Vec<Record> {
    let mut records = Vec::new();
    let mut rest = bytes;
    for _ in 0..turns {
        let map = rest[0];
        rest = &rest[1..];
        let mut fields = [const { Vec::new() }; 6];
        for field in 0..6 {
            if bit(map, field) {
                fields[field] = rest[..WIDTHS[field]].to_vec();
                rest = &rest[WIDTHS[field]..];
            }
        }
        records.push(Record { map, fields });
    }
    records
}

/// Writes the sheet whose kept form this is and gives its length: 1 to 4 for
/// the header; 1 for too few maps, 5 for any map; 1 and 10 for the length; then
/// turn by turn 6 to 9 and 19; then 11.
pub fn restore(kept: &[u8], out: &mut [u8]) -> Result<usize, u8> {
    let records = accept_kept(kept)?;
    let mut sheet = vec![0x47, 0x52, 0x4D];
    sheet.extend(&kept[3..7]);
    for record in &records {
        put(&mut sheet, record.map.into(), 1);
        for field in &record.fields {
            sheet.extend(field);
        }
    }
    lend(&sheet, out)
}

/// The records of a kept form, all of it judged.
fn accept_kept(bytes: &[u8]) -> Result<Vec<Record>, u8> {
    if bytes.len() < 7 {
        return Err(1);
    }
    if bytes[0..3] != [0x47, 0x52, 0x43] {
        return Err(2);
    }
    let (groomers, slopes) = (number(&bytes[3..4]), number(&bytes[4..5]));
    judge_counts(groomers, slopes)?;
    let turns = number(&bytes[5..7]) as usize;
    if turns > 400 {
        return Err(4);
    }
    let rest = &bytes[7..];
    if rest.len() < turns {
        return Err(1);
    }
    let (maps, columns) = rest.split_at(turns);
    judge_maps(maps)?;
    if columns.len() < field_bytes(maps) {
        return Err(1);
    }
    if columns.len() > field_bytes(maps) {
        return Err(10);
    }
    let records = records_by_column(maps, columns);
    judge_values(&records, groomers, slopes)?;
    Ok(records)
}

/// Refusal 5: bit 6 or 7 stands in a map, or the first one lacks another field
/// than the driver.
fn judge_maps(maps: &[u8]) -> Result<(), u8> {
    for turn in 0..maps.len() {
        let map = maps[turn];
        if bit(map, 6) || bit(map, 7) {
            return Err(5);
        }
        if turn == 0 && map != 0x1F && map != 0x3F {
            return Err(5);
        }
    }
    Ok(())
}

/// How many bytes the fields have that the maps name.
fn field_bytes(maps: &[u8]) -> usize {
    let mut bytes = 0;
    for &map in maps {
        for field in 0..6 {
            if bit(map, field) {
                bytes += WIDTHS[field];
            }
        }
    }
    bytes
}

/// The records: field by field, each that names the field has the next bytes.
fn records_by_column(maps: &[u8], columns: &[u8]) -> Vec<Record> {
    let record = |&map| Record {
        map,
        fields: [const { Vec::new() }; 6],
    };
    let mut records: Vec<Record> = maps.iter().map(record).collect();
    let mut rest = columns;
    for field in 0..6 {
        for record in &mut records {
            if bit(record.map, field) {
                record.fields[field] = rest[..WIDTHS[field]].to_vec();
                rest = &rest[WIDTHS[field]..];
            }
        }
    }
    records
}

/// Refusals 6 to 9 and 19, turn by turn. A field that a record does not name
/// has the value of the turn before; a first driver that is not named is 0.
fn judge_values(records: &[Record], groomers: u32, slopes: u32) -> Result<(), u8> {
    let mut values = [0; 6];
    for record in records {
        for field in 0..6 {
            if bit(record.map, field) {
                values[field] = number(&record.fields[field]);
            }
        }
        judge_turn(&Turn::new(values), groomers, slopes)?;
    }
    Ok(())
}
