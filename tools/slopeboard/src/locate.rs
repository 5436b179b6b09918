//! Which record of a sheet the library refuses.

use slopeboard::Refusal;

/// The two bytes of the header with the number of records.
const COUNT: std::ops::Range<usize> = 5..7;

/// The number of the record that is refused, if it is a record. The library goes
/// from record to record, and a sheet that says it has fewer of them is refused
/// for the bytes behind the last, as long as those that it has are right. So
/// the first count with another refusal tells.
pub fn record(
    sheet: &[u8],
    refusal: Refusal,
    refused: impl Fn(&[u8]) -> Option<Refusal>,
) -> Option<u16> {
    if !of_record(refusal) {
        return None;
    }
    let count = sheet.get(COUNT)?;
    let count = u16::from_be_bytes([count[0], count[1]]);
    let mut fewer = sheet.to_vec();
    (0..count).find(|record| {
        fewer[COUNT].copy_from_slice(&(record + 1).to_be_bytes());
        refused(&fewer) == Some(refusal)
    })
}

/// Whether the refusal can be of one record.
fn of_record(refusal: Refusal) -> bool {
    matches!(
        refusal,
        Refusal::Truncated
            | Refusal::BadMap
            | Refusal::BadSlope
            | Refusal::BadGroomer
            | Refusal::BadTime
            | Refusal::BadWorth
            | Refusal::BadDriver
            | Refusal::BadDraw
    )
}
