//! Times of day and minutes of the shift.

/// Minutes of a day.
const DAY: u64 = 24 * 60;

/// A time of day such as 18:05, in minutes after midnight.
pub fn time_of_day(text: &str) -> Option<u64> {
    span(text).filter(|minutes| *minutes < DAY)
}

/// Hours and minutes such as 1:30, in minutes.
fn span(text: &str) -> Option<u64> {
    let (hours, minutes) = text.split_once(':')?;
    if hours.len() > 2 || minutes.len() != 2 {
        return None;
    }
    let (hours, minutes) = (number(hours)?, number(minutes)?);
    (minutes < 60).then_some(hours * 60 + minutes)
}

/// Digits alone, as a number.
pub fn number(text: &str) -> Option<u64> {
    let digits = text.bytes().all(|sign| sign.is_ascii_digit());
    text.parse().ok().filter(|_| digits)
}

/// The minute of the shift: a number of minutes, or a time of day, which is
/// counted from the shift's first.
pub fn start(text: &str, from: u64) -> Option<u64> {
    if text.contains(':') {
        return time_of_day(text).map(|time| (time + DAY - from) % DAY);
    }
    number(text)
}

/// A number of minutes, or hours and minutes.
pub fn length(text: &str) -> Option<u64> {
    if text.contains(':') {
        return span(text);
    }
    number(text)
}

/// A minute of the shift in text: the minute itself, or the time of day if the
/// shift's first is given.
pub fn shown(minute: u16, from: Option<u64>) -> String {
    let Some(from) = from else {
        return minute.to_string();
    };
    let time = (from + u64::from(minute)) % DAY;
    format!("{:02}:{:02}", time / 60, time % 60)
}

#[cfg(test)]
mod tests {
    use super::*;

    #[test]
    fn times_are_read() {
        assert_eq!(start("90", 0), Some(90));
        assert_eq!(start("01:30", 0), Some(90));
        assert_eq!(start("18:00", 18 * 60), Some(0));
        assert_eq!(start("2:15", 18 * 60), Some(8 * 60 + 15));
        assert_eq!(start("17:59", 18 * 60), Some(DAY - 1));
        assert_eq!(length("1:30"), Some(90));
        for bad in [
            "", ":", "1:2", "24:00", "12:60", "+5", "-1", "1:+5", "1.5", "7 0",
        ] {
            assert_eq!(start(bad, 0), None, "{bad}");
        }
    }

    #[test]
    fn times_are_shown() {
        assert_eq!(shown(75, None), "75");
        assert_eq!(shown(75, Some(17 * 60)), "18:15");
        assert_eq!(shown(480, Some(17 * 60)), "01:00");
    }
}
