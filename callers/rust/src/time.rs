// SPDX-License-Identifier: Apache-2.0
//! Dates, times of day and instants, as literals of columns of times.
use std::str::FromStr;
use std::time::{Duration, SystemTime, UNIX_EPOCH};

pub(crate) const DAY: i128 = 86_400;
const NANOS: i128 = 1_000_000_000;

/// What a column's times are counted in.
#[derive(Clone, Copy, Debug, PartialEq, Eq, Hash)]
pub enum Unit {
    Second,
    Milli,
    Micro,
    Nano,
}

impl Unit {
    /// Every unit, the longest first.
    pub const EVERY: [Unit; 4] = [Unit::Second, Unit::Milli, Unit::Micro, Unit::Nano];

    /// Returns the unit's word in a type's, as `us`.
    #[must_use]
    pub fn word(self) -> &'static str {
        ["s", "ms", "us", "ns"][self as usize]
    }

    // The library's number of the unit.
    pub(crate) fn number(self) -> u8 {
        self as u8 + 1
    }

    // How many nanoseconds it has.
    pub(crate) fn nanos(self) -> i128 {
        [NANOS, 1_000_000, 1000, 1][self as usize]
    }
}

/// A date of the Gregorian calendar, as the days since 1970-01-01.
#[derive(Clone, Copy, Debug, PartialEq, Eq, PartialOrd, Ord, Hash)]
pub struct Date(i32);

impl Date {
    /// Returns the date of a year, month and day; `None` where there is no such day.
    ///
    /// ```
    /// use foalmorrow::Date;
    /// assert_eq!(Date::new(1970, 2, 1).map(Date::days), Some(31));
    /// assert_eq!(Date::new(2026, 2, 29), None);
    /// ```
    #[must_use]
    pub fn new(year: i32, month: u8, day: u8) -> Option<Date> {
        let is_leap = year % 4 == 0 && (year % 100 != 0 || year % 400 == 0);
        let days = [31, if is_leap { 29 } else { 28 }, 31, 30, 31, 30, 31, 31, 30, 31, 30, 31];
        let last = *days.get(usize::from(month.checked_sub(1)?))?;
        if day == 0 || day > last {
            return None;
        }
        // Years that begin in March have their odd day last.
        let (year, month) = (i64::from(year) - i64::from(month < 3), (i64::from(month) + 9) % 12);
        let cycle = year.div_euclid(400);
        let place = year.rem_euclid(400);
        let of_year = (153 * month + 2) / 5 + i64::from(day) - 1;
        let days = cycle * 146_097 + place * 365 + place / 4 - place / 100 + of_year - 719_468;
        i32::try_from(days).ok().map(Date)
    }

    /// Returns the date so many days after 1970-01-01.
    #[must_use]
    pub fn from_days(days: i32) -> Date {
        Date(days)
    }

    /// Returns the days since 1970-01-01.
    #[must_use]
    pub fn days(self) -> i32 {
        self.0
    }
}

/// A time of day, as the nanoseconds since midnight.
#[derive(Clone, Copy, Debug, PartialEq, Eq, PartialOrd, Ord, Hash)]
pub struct Time(u64);

impl Time {
    /// Returns a time of day; `None` where it is 24 hours or more.
    #[must_use]
    pub fn since_midnight(span: Duration) -> Option<Time> {
        let nanos = u64::try_from(span.as_nanos()).ok()?;
        (i128::from(nanos) < DAY * NANOS).then_some(Time(nanos))
    }

    pub(crate) fn nanos(self) -> i128 {
        self.0.into()
    }
}

/// A date and a time of day on a clock without a zone.
#[derive(Clone, Copy, Debug, PartialEq, Eq, PartialOrd, Ord, Hash)]
pub struct DateTime(i128);

impl DateTime {
    /// Returns a time of a day.
    #[must_use]
    pub fn new(date: Date, time: Time) -> DateTime {
        DateTime(i128::from(date.0) * DAY * NANOS + time.nanos())
    }

    pub(crate) fn nanos(self) -> i128 {
        self.0
    }
}

impl From<Date> for DateTime {
    /// Returns the day's midnight.
    fn from(date: Date) -> Self {
        DateTime::new(date, Time(0))
    }
}

/// An instant, as the nanoseconds since 1970-01-01 00:00:00 UTC.
#[derive(Clone, Copy, Debug, PartialEq, Eq, PartialOrd, Ord, Hash)]
pub struct Instant(i128);

impl Instant {
    /// Returns the instant so many nanoseconds after 1970 began in UTC.
    #[must_use]
    pub fn from_nanos(nanos: i128) -> Instant {
        Instant(nanos)
    }

    pub(crate) fn nanos(self) -> i128 {
        self.0
    }
}

impl From<SystemTime> for Instant {
    fn from(time: SystemTime) -> Self {
        let nanos = |span: Duration| i128::try_from(span.as_nanos()).expect("a span of 64 bits of seconds fits");
        Instant(match time.duration_since(UNIX_EPOCH) {
            Ok(after) => nanos(after),
            Err(before) => -nanos(before.duration()),
        })
    }
}

/// A text that is none of ISO 8601 here.
#[derive(Clone, Copy, Debug, PartialEq, Eq)]
pub struct NoTime;

impl std::fmt::Display for NoTime {
    fn fmt(&self, f: &mut std::fmt::Formatter<'_>) -> std::fmt::Result {
        write!(f, "the text is no date or time of ISO 8601, or finer than nanoseconds")
    }
}

impl std::error::Error for NoTime {}

// A number of so many digits and no other characters.
fn digits<T: FromStr>(text: &str, count: usize) -> Result<T, NoTime> {
    if text.len() != count || !text.bytes().all(|byte| byte.is_ascii_digit()) {
        return Err(NoTime);
    }
    text.parse().map_err(|_| NoTime)
}

impl FromStr for Date {
    type Err = NoTime;

    /// Reads `2026-01-31`.
    fn from_str(text: &str) -> Result<Self, NoTime> {
        let mut parts = text.splitn(3, '-');
        let mut next = || parts.next().ok_or(NoTime);
        let (year, month, day) = (digits(next()?, 4)?, digits(next()?, 2)?, digits(next()?, 2)?);
        Date::new(year, month, day).ok_or(NoTime)
    }
}

impl FromStr for Time {
    type Err = NoTime;

    /// Reads `12:00`, `12:00:00` and `12:00:00.5`, with up to nine digits of a second.
    fn from_str(text: &str) -> Result<Self, NoTime> {
        let mut parts = text.splitn(3, ':');
        let mut next = || parts.next().ok_or(NoTime);
        let (hour, minute): (u64, u64) = (digits(next()?, 2)?, digits(next()?, 2)?);
        let (second, part) = match parts.next().map(|it| it.split_once('.').map_or((it, None), |(a, b)| (a, Some(b)))) {
            None => (0, None),
            Some((second, part)) => (digits(second, 2)?, part),
        };
        let part: u64 = match part {
            None => 0,
            Some(part) if (1..=9).contains(&part.len()) => {
                digits::<u64>(part, part.len())? * 10_u64.pow(9 - part.len() as u32)
            }
            Some(_) => return Err(NoTime),
        };
        if hour > 23 || minute > 59 || second > 59 {
            return Err(NoTime);
        }
        Ok(Time(((hour * 60 + minute) * 60 + second) * 1_000_000_000 + part))
    }
}

impl FromStr for DateTime {
    type Err = NoTime;

    /// Reads a date, or a date and a time behind a space or a `T`, without a zone.
    fn from_str(text: &str) -> Result<Self, NoTime> {
        match text.split_once([' ', 'T']) {
            None => Ok(text.parse::<Date>()?.into()),
            Some((date, time)) => Ok(DateTime::new(date.parse()?, time.parse()?)),
        }
    }
}

impl FromStr for Instant {
    type Err = NoTime;

    /// Reads a date and a time with a zone behind them, `Z` or an offset as `+02:00`.
    fn from_str(text: &str) -> Result<Self, NoTime> {
        if let Some(clock) = text.strip_suffix('Z') {
            return at_offset(clock, 0);
        }
        let place = text.len().checked_sub(6).filter(|place| text.is_char_boundary(*place)).ok_or(NoTime)?;
        let (clock, zone) = text.split_at(place);
        let sign = match zone.as_bytes()[0] {
            b'+' => 1,
            b'-' => -1,
            _ => return Err(NoTime),
        };
        let offset = zone[1..].parse::<Time>()?;
        at_offset(clock, sign * offset.nanos())
    }
}

// A clock's instant where the clock is so many nanoseconds ahead of UTC. It has a time of day.
fn at_offset(clock: &str, ahead: i128) -> Result<Instant, NoTime> {
    if !clock.contains(':') {
        return Err(NoTime);
    }
    Ok(Instant(clock.parse::<DateTime>()?.0 - ahead))
}
