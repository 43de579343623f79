//! Decimal numbers of any count of digits, held as digit strings, so that every test is made on the exact decimal.

/// A decimal without sign: its whole digits without leading zeros and its decimals without trailing zeros.
pub struct Decimal<'a> {
    whole: &'a [u8],
    decimals: &'a [u8],
}

/// The greatest line number either way, and the greatest lines count of a region.
pub const GREATEST_NUMBER: u64 = 999_999;
/// One, in millionths.
pub const ONE: u64 = 1_000_000;

pub fn is_digit(c: u8) -> bool {
    c.is_ascii_digit()
}

/// ASCII whitespace: tab, LF, FF, CR, space.
pub fn is_space(c: u8) -> bool {
    matches!(c, b'\t' | b'\n' | 0x0C | b'\r' | b' ')
}

fn all_digits(text: &[u8]) -> bool {
    text.iter().all(|&c| is_digit(c))
}

impl<'a> Decimal<'a> {
    /// One or more digits; optionally a full stop and one or more digits; nothing else.
    pub fn read(text: &'a [u8]) -> Option<Decimal<'a>> {
        let (mut whole, mut decimals): (&[u8], &[u8]) = match text.iter().position(|&c| c == b'.') {
            None => (text, b"0"),
            Some(stop) => (&text[..stop], &text[stop + 1..]),
        };
        if whole.is_empty() || decimals.is_empty() || !all_digits(whole) || !all_digits(decimals) {
            return None;
        }
        while whole.first() == Some(&b'0') {
            whole = &whole[1..];
        }
        while decimals.last() == Some(&b'0') {
            decimals = &decimals[..decimals.len() - 1];
        }
        Some(Decimal { whole, decimals })
    }

    /// Is the exact decimal above a whole number.
    pub fn is_above(&self, limit: u64) -> bool {
        let limit = if limit == 0 { String::new() } else { limit.to_string() };
        let limit = limit.as_bytes();
        if self.whole.len() != limit.len() {
            return self.whole.len() > limit.len();
        }
        if self.whole != limit {
            return self.whole > limit;
        }
        !self.decimals.is_empty()
    }

    /// In millionths, further digits cut toward zero. For a decimal that is not above its limit, a few digits.
    pub fn millionths(&self) -> u64 {
        let mut number = 0;
        for &digit in self.whole {
            number = number * 10 + u64::from(digit - b'0');
        }
        for place in 0..6 {
            let digit = self.decimals.get(place).map_or(0, |&d| d - b'0');
            number = number * 10 + u64::from(digit);
        }
        number
    }
}

/// 000 section 6.2, "parse a percentage string": a number in millionths, or None where it fails.
pub fn percentage(input: &[u8]) -> Option<u64> {
    // Steps 2, 3: the syntax of a WebVTT percentage; remove the last character.
    let (&last, number) = input.split_last()?;
    if last != b'%' {
        return None;
    }
    let decimal = Decimal::read(number)?;
    // Step 5: greater than 100 fails. The test is made on the exact decimal before the cut.
    if decimal.is_above(100) {
        return None;
    }
    Some(decimal.millionths())
}

/// A number that the steps store: within its limit, or above it (refusal 5).
#[derive(Debug, Clone, Copy, PartialEq, Eq)]
pub enum Stored<N> {
    Within(N),
    Above,
}

/// 000 section 6.3, "line", step 3, otherwise: a line number in millionths, or None for a malformed one.
pub fn line_number(linepos: &[u8]) -> Option<Stored<i128>> {
    // 1. A character other than hyphen-minus, digits and full stop.
    if linepos.iter().any(|&c| c != b'-' && c != b'.' && !is_digit(c)) {
        return None;
    }
    // 2. A character other than the first is a hyphen-minus.
    if linepos.iter().skip(1).any(|&c| c == b'-') {
        return None;
    }
    // 3. More than one full stop.
    if linepos.iter().filter(|&&c| c == b'.').count() > 1 {
        return None;
    }
    // 4. A full stop that is first or last, or that has no digit before it or after it.
    if let Some(stop) = linepos.iter().position(|&c| c == b'.') {
        let before = stop > 0 && is_digit(linepos[stop - 1]);
        let after = linepos.get(stop + 1).is_some_and(|&c| is_digit(c));
        if !before || !after {
            return None;
        }
    }
    // 5, 6. The number, exact.
    let negative = linepos.first() == Some(&b'-');
    let digits = if negative { &linepos[1..] } else { linepos };
    let decimal = Decimal::read(digits)?;
    if decimal.is_above(GREATEST_NUMBER) {
        return Some(Stored::Above);
    }
    // Minus zero is 0, also where the cut leaves no digit but 0.
    let millionths = i128::from(decimal.millionths());
    Some(Stored::Within(if negative { -millionths } else { millionths }))
}

/// 000 section 6.2, "lines": a count, or None where a character is no digit.
pub fn lines_count(value: &[u8]) -> Option<Stored<u64>> {
    if !all_digits(value) {
        return None;
    }
    let decimal = Decimal::read(value)?;
    if decimal.is_above(GREATEST_NUMBER) {
        return Some(Stored::Above);
    }
    Some(Stored::Within(decimal.millionths() / ONE))
}
