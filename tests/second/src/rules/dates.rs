//! 151's moments: YYYY-MM-DDThh:mm:ss.sssZ, days by the Gregorian calendar.

const MONTH_LENGTHS: [u32; 12] = [31, 28, 31, 30, 31, 30, 31, 31, 30, 31, 30, 31];

/// A moment's form: `0` stands for any digit, all else for itself.
const FORM: &[u8; 24] = b"0000-00-00T00:00:00.000Z";

pub fn is_moment(text: &[u8]) -> bool {
    has_form(text) && is_date(text) && is_time(text)
}

fn has_form(text: &[u8]) -> bool {
    let fits = |(&octet, &form): (&u8, &u8)| match form {
        b'0' => octet.is_ascii_digit(),
        _ => octet == form,
    };
    text.len() == FORM.len() && text.iter().zip(FORM).all(fits)
}

fn is_date(text: &[u8]) -> bool {
    let (year, month, day) = (number(&text[0..4]), number(&text[5..7]), number(&text[8..10]));
    (1..=12).contains(&month) && (1..=month_length(year, month)).contains(&day)
}

fn is_time(text: &[u8]) -> bool {
    number(&text[11..13]) <= 23 && number(&text[14..16]) <= 59 && number(&text[17..19]) <= 59
}

/// The number that some digits spell.
fn number(digits: &[u8]) -> u32 {
    let add = |value, &digit: &u8| value * 10 + u32::from(digit - b'0');
    digits.iter().fold(0, add)
}

fn month_length(year: u32, month: u32) -> u32 {
    let leap_day = u32::from(month == 2 && is_leap(year));
    MONTH_LENGTHS[month as usize - 1] + leap_day
}

fn is_leap(year: u32) -> bool {
    year.is_multiple_of(4) && (!year.is_multiple_of(100) || year.is_multiple_of(400))
}
