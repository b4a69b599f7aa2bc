//! Instants as texts: whether a text reads as one. Nothing here needs the instant itself.
//!
//! A date, `T` or `t` or a space, a time and an offset, then annotations in brackets. Dates and times may be written
//! with all their separators or with none; a fraction has one to nine digits after a dot or a comma.

/// The seconds since 1970 of the first and the last instant.
const FIRST: i64 = -377_705_023_201;
const LAST: i64 = 253_402_207_200;

/// Whether the text is an instant.
pub fn is_instant(text: &str) -> bool {
    let mut reader = Reader { rest: text.as_bytes() };
    let whole = (|| {
        let day = reader.date()?;
        reader.one_of(b"Tt ")?;
        let second = reader.time()?;
        let offset = reader.offset()?;
        reader.annotations()?;
        Some(day * 86_400 + second - offset)
    })();
    whole.map_or(false, |seconds| reader.rest.is_empty() && (FIRST..=LAST).contains(&seconds))
}

struct Reader<'a> {
    rest: &'a [u8],
}

impl Reader<'_> {
    fn peek(&self) -> Option<u8> {
        self.rest.first().copied()
    }

    fn skip(&mut self, byte: u8) -> bool {
        let found = self.peek() == Some(byte);
        if found {
            self.rest = &self.rest[1..];
        }
        found
    }

    fn one_of(&mut self, bytes: &[u8]) -> Option<u8> {
        let byte = self.peek().filter(|b| bytes.contains(b))?;
        self.rest = &self.rest[1..];
        Some(byte)
    }

    fn two_digits(&mut self) -> Option<i64> {
        match *self.rest {
            [high, low, ..] if high.is_ascii_digit() && low.is_ascii_digit() => {
                self.rest = &self.rest[2..];
                Some(i64::from(high - b'0') * 10 + i64::from(low - b'0'))
            }
            _ => None,
        }
    }

    fn field(&mut self, range: std::ops::RangeInclusive<i64>) -> Option<i64> {
        self.two_digits().filter(|n| range.contains(n))
    }

    /// Four digits, or a sign and six; the year 0 has no negative sign.
    fn year(&mut self) -> Option<i64> {
        match self.one_of(b"+-") {
            None => Some(self.two_digits()? * 100 + self.two_digits()?),
            Some(sign) => {
                let tens_of_thousands = self.two_digits()?;
                let year = self.two_digits()? * 100 + self.two_digits()?;
                let is_year = tens_of_thousands == 0 && !(sign == b'-' && year == 0);
                is_year.then_some(if sign == b'-' { -year } else { year })
            }
        }
    }

    /// A date, as the number of its day from 1970-01-01 on.
    fn date(&mut self) -> Option<i64> {
        let year = self.year()?;
        let dashes = self.skip(b'-');
        let month = self.field(1..=12)?;
        if self.skip(b'-') != dashes {
            return None;
        }
        let day = self.field(1..=31)?;
        (day <= days_in_month(year, month)).then(|| day_number(year, month, day))
    }

    /// Whether another part of a time or an offset follows.
    fn goes_on(&mut self, colons: bool) -> bool {
        if colons {
            self.skip(b':')
        } else {
            matches!(*self.rest, [high, low, ..] if high.is_ascii_digit() && low.is_ascii_digit())
        }
    }

    /// A dot or a comma and one to nine digits; answers the nanoseconds.
    fn fraction(&mut self) -> Option<u64> {
        if self.one_of(b".,").is_none() {
            return Some(0);
        }
        let digits = self.rest.iter().take(9).take_while(|b| b.is_ascii_digit()).count();
        let nanoseconds = (0..9).fold(0, |n, i| n * 10 + if i < digits { u64::from(self.rest[i] - b'0') } else { 0 });
        self.rest = &self.rest[digits..];
        (digits > 0).then_some(nanoseconds)
    }

    /// A time of day in whole seconds. Its fraction never decides whether an instant is in range.
    fn time(&mut self) -> Option<i64> {
        let hour = self.field(0..=23)?;
        let colons = self.peek() == Some(b':');
        if !self.goes_on(colons) {
            return Some(hour * 3_600);
        }
        let minute = self.field(0..=59)?;
        if !self.goes_on(colons) {
            return Some(hour * 3_600 + minute * 60);
        }
        let second = self.field(0..=60)?.min(59);
        self.fraction()?;
        Some(hour * 3_600 + minute * 60 + second)
    }

    /// `Z`, or a sign, hours, and perhaps minutes, seconds and a fraction, which is rounded.
    fn offset(&mut self) -> Option<i64> {
        if self.one_of(b"Zz").is_some() {
            return Some(0);
        }
        let sign = self.one_of(b"+-")?;
        let mut total = self.field(0..=25)? * 3_600;
        let colons = self.peek() == Some(b':');
        if self.goes_on(colons) {
            total += self.field(0..=59)? * 60;
            if self.goes_on(colons) {
                total += self.field(0..=59)?;
                total += i64::from(self.fraction()? >= 500_000_000);
            }
        }
        (total < 26 * 3_600).then_some(if sign == b'-' { -total } else { total })
    }

    /// A time zone in brackets, then pairs of a key and a value; a pair that is marked as critical is refused.
    fn annotations(&mut self) -> Option<()> {
        let before = self.rest;
        if self.skip(b'[') {
            self.skip(b'!');
            if matches!(self.peek(), Some(b'+' | b'-')) {
                self.zone_offset()?;
                self.closed()?;
            } else {
                self.part(is_zone_start, is_zone)?;
                if self.peek() == Some(b'=') {
                    self.rest = before;
                } else {
                    while self.skip(b'/') {
                        self.part(is_zone_start, is_zone)?;
                    }
                    self.closed()?;
                }
            }
        }
        while self.skip(b'[') {
            let critical = self.skip(b'!');
            self.part(|b| b == b'_' || b.is_ascii_lowercase(), |b| b == b'_' || b == b'-' || is_key(b))?;
            self.one_of(b"=")?;
            self.part(|b| b.is_ascii_alphanumeric(), |b| b.is_ascii_alphanumeric())?;
            while self.skip(b'-') {
                self.part(|b| b.is_ascii_alphanumeric(), |b| b.is_ascii_alphanumeric())?;
            }
            self.closed()?;
            if critical {
                return None;
            }
        }
        Some(())
    }

    /// The offset of a time zone in brackets, which has no seconds.
    fn zone_offset(&mut self) -> Option<()> {
        self.one_of(b"+-")?;
        self.field(0..=25)?;
        let colons = self.peek() == Some(b':');
        if self.goes_on(colons) {
            self.field(0..=59)?;
        }
        Some(())
    }

    fn closed(&mut self) -> Option<()> {
        self.one_of(b"]").map(|_| ())
    }

    /// One byte of the first kind, then as many of the second as there are.
    fn part(&mut self, first: fn(u8) -> bool, later: fn(u8) -> bool) -> Option<()> {
        self.peek().filter(|&b| first(b))?;
        let length = 1 + self.rest[1..].iter().take_while(|&&b| later(b)).count();
        self.rest = &self.rest[length..];
        Some(())
    }
}

fn is_zone_start(byte: u8) -> bool {
    byte == b'_' || byte == b'.' || byte.is_ascii_alphabetic()
}

fn is_zone(byte: u8) -> bool {
    is_zone_start(byte) || byte == b'+' || byte == b'-' || byte.is_ascii_digit()
}

fn is_key(byte: u8) -> bool {
    byte.is_ascii_digit() || byte.is_ascii_lowercase()
}

fn is_leap_year(year: i64) -> bool {
    year % 4 == 0 && (year % 100 != 0 || year % 400 == 0)
}

fn days_in_month(year: i64, month: i64) -> i64 {
    match month {
        2 => 28 + i64::from(is_leap_year(year)),
        4 | 6 | 9 | 11 => 30,
        _ => 31,
    }
}

/// Days from 1970-01-01, counted in years that begin in March.
fn day_number(year: i64, month: i64, day: i64) -> i64 {
    let year = if month <= 2 { year - 1 } else { year };
    let day_of_year = (153 * ((month + 9) % 12) + 2) / 5 + day - 1;
    year * 365 + year.div_euclid(4) - year.div_euclid(100) + year.div_euclid(400) + day_of_year - 719_468
}

#[cfg(test)]
mod tests {
    use super::is_instant;

    #[test]
    fn reads_what_the_grammar_takes() {
        for text in [
            "2026-01-01T00:00:00Z",
            "20260101t000000z",
            "2026-01-01 00:00:00,5+25:59:59",
            "2026-01-01T23:59:60Z",
            "2026-01-01T00Z",
            "2026-01-01T0000Z",
            "+002026-01-01T00:00Z",
            "-009999-01-02T01:59:59Z",
            "9999-12-30T22:00:00.999999999Z",
            "2024-02-29T00:00:00Z[Europe/Berlin][u-ca=hebrew]",
            "2026-01-01T00:00:00Z[+02:00]",
            "2026-01-01T00:00:00Z[u-ca=a-b]",
        ] {
            assert!(is_instant(text), "{text}");
        }
    }

    #[test]
    fn refuses_the_rest() {
        for text in [
            "",
            "2026-01-01",
            "2026-01-01T00:00:00",
            "2026-0101T00:00:00Z",
            "2026-13-01T00:00:00Z",
            "2025-02-29T00:00:00Z",
            "2026-01-01T24:00:00Z",
            "2026-01-01T00:00:00.Z",
            "2026-01-01T00:00:00.1234567890Z",
            "9999-12-30T22:00:01Z",
            "-009999-01-02T01:59:58Z",
            "-000000-01-01T00:00:00Z",
            "2026-01-01T00:00:00+26",
            "2026-01-01T00:00:00Z[!u-ca=a]",
            "2026-01-01T00:00:00Z ",
        ] {
            assert!(!is_instant(text), "{text}");
        }
    }
}
