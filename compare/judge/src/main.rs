//! The crate as judge: reads commands, one a line, and answers each in a line with what vtc 0.1.14 says.
//!
//! The commands are listed in compare/README.md. RATE and FORMAT are the numbers of docs/BEHAVIOUR.md. What the crate refuses is
//! `error KIND`, where it panics is `panic`, and what is no command is `not understood`.

use num::Rational64;
use std::cmp::Ordering;
use std::io::{self, BufRead, BufReader, BufWriter, Write};
use std::panic;
use vtc::{rates, FeetFramesStr, FilmFormat, Framerate, Ntsc, Timecode, TimecodeParseError, TimecodeParseResult};

/// The twelve rates: frames a second as a fraction, timebase, whether labels are dropped.
const TABLE: [(i64, i64, i64, bool); 12] = [
    (24000, 1001, 24, false),
    (24, 1, 24, false),
    (25, 1, 25, false),
    (30000, 1001, 30, false),
    (30000, 1001, 30, true),
    (30, 1, 30, false),
    (48000, 1001, 48, false),
    (48, 1, 48, false),
    (50, 1, 50, false),
    (60000, 1001, 60, false),
    (60000, 1001, 60, true),
    (60, 1, 60, false),
];

/// The crate's rates in the order of our table: its constants, and 50, for which it has none.
fn crate_rates() -> [Framerate; 12] {
    let f50 = Framerate::with_playback(50, Ntsc::None).expect("50 is a rate of the crate");
    let rates = [
        rates::F23_98,
        rates::F24,
        rates::F25,
        rates::F29_97_NDF,
        rates::F29_97_DF,
        rates::F30,
        rates::F47_95,
        rates::F48,
        f50,
        rates::F59_94_NDF,
        rates::F59_94_DF,
        rates::F60,
    ];
    for (rate, (numerator, denominator, timebase, drop)) in rates.iter().zip(TABLE) {
        assert_eq!(rate.playback(), Rational64::new(numerator, denominator));
        assert_eq!(rate.timebase(), Rational64::from_integer(timebase));
        assert_eq!(rate.ntsc() == Ntsc::DropFrame, drop);
        assert_eq!(rate.ntsc().is_ntsc(), denominator == 1001);
    }
    rates
}

/// A 64-bit number: digits, with a `-` in front or not.
fn number(word: &str) -> Option<i64> {
    if word.starts_with('+') {
        return None;
    }
    word.parse().ok()
}

/// A number of decimal places; over 1000 are not understood.
fn places(word: &str) -> Option<usize> {
    usize::try_from(number(word)?).ok().filter(|&n| n <= 1000)
}

fn format_of(word: &str) -> Option<FilmFormat> {
    match number(word)? {
        1 => Some(FilmFormat::FF35mm4perf),
        2 => Some(FilmFormat::FF35mm3perf),
        3 => Some(FilmFormat::FF35mm2perf),
        4 => Some(FilmFormat::FF16mm),
        _ => None,
    }
}

/// What the crate made: the count, or the kind of its error.
fn shown(made: TimecodeParseResult) -> String {
    match made {
        Ok(timecode) => timecode.frames().to_string(),
        Err(TimecodeParseError::Conversion(_)) => "error Conversion".to_string(),
        Err(TimecodeParseError::UnknownStrFormat(_)) => "error UnknownStrFormat".to_string(),
        Err(TimecodeParseError::DropFrameValue(_)) => "error DropFrameValue".to_string(),
    }
}

/// The part before the first space, and the part after it (empty if there is no space).
fn split(line: &[u8]) -> (&[u8], &[u8]) {
    match line.iter().position(|&byte| byte == b' ') {
        Some(at) => (&line[..at], &line[at + 1..]),
        None => (line, &[]),
    }
}

struct Judge {
    rates: [Framerate; 12],
}

impl Judge {
    fn rate(&self, word: &str) -> Option<Framerate> {
        let index = usize::try_from(number(word)?).ok()?.checked_sub(1)?;
        self.rates.get(index).copied()
    }

    fn timecode(&self, rate: &str, count: &str) -> Option<Timecode> {
        let (rate, count) = (self.rate(rate)?, number(count)?);
        Some(Timecode::with_frames(count, rate).expect("a whole number is always taken"))
    }

    /// The answer to a line; none if it is not understood.
    fn answer(&self, line: &[u8]) -> Option<String> {
        let (command, rest) = split(line);
        match command {
            b"read" | b"read_runtime" => {
                let (rate, text) = split(rest);
                self.read(command, None, rate, text)
            }
            b"read_as" => {
                let (format, rest) = split(rest);
                let (rate, text) = split(rest);
                self.read(command, Some(format), rate, text)
            }
            _ => {
                let words: Vec<&str> = std::str::from_utf8(rest).ok()?.split(' ').collect();
                self.compute(command, &words)
            }
        }
    }

    /// The commands that end in a text.
    fn read(&self, command: &[u8], format: Option<&[u8]>, rate: &[u8], text: &[u8]) -> Option<String> {
        let rate = self.rate(std::str::from_utf8(rate).ok()?)?;
        let format = match format {
            Some(word) => Some(format_of(std::str::from_utf8(word).ok()?)?),
            None => None,
        };
        let text = match std::str::from_utf8(text) {
            Ok(text) => text,
            Err(_) => return Some("error Utf8".to_string()),
        };
        Some(match format {
            Some(format) => shown(Timecode::with_frames(FeetFramesStr::new(text, format), rate)),
            None if command == b"read" => shown(Timecode::with_frames(text, rate)),
            None => shown(Timecode::with_seconds(text, rate)),
        })
    }

    /// The commands whose arguments are all numbers.
    fn compute(&self, command: &[u8], words: &[&str]) -> Option<String> {
        let count = |timecode: Timecode| Some(timecode.frames().to_string());
        match (command, words) {
            (b"count", [r, c]) => count(self.timecode(r, c)?),
            (b"from_ticks", [r, t]) => Some(shown(Timecode::with_premiere_ticks(number(t)?, self.rate(r)?))),
            (b"from_seconds", [r, p, q]) => {
                let (rate, p, q) = (self.rate(r)?, number(p)?, number(q)?);
                Some(shown(Timecode::with_seconds(Rational64::new(p, q), rate)))
            }
            (b"label", [r, c]) => Some(self.timecode(r, c)?.timecode()),
            (b"sections", [r, c]) => {
                let s = self.timecode(r, c)?.sections();
                Some(format!("{} {} {} {}", s.hours, s.minutes, s.seconds, s.frames))
            }
            (b"footage", [f, r, c]) => {
                let format = format_of(f)?;
                Some(self.timecode(r, c)?.feet_and_frames(format))
            }
            (b"runtime", [r, c, n]) => {
                let precision = places(n)?;
                Some(self.timecode(r, c)?.runtime(precision))
            }
            (b"ticks", [r, c]) => Some(self.timecode(r, c)?.premiere_ticks().to_string()),
            (b"seconds", [r, c]) => {
                let seconds = self.timecode(r, c)?.seconds();
                Some(format!("{}/{}", seconds.numer(), seconds.denom()))
            }
            (b"add", [r, c, s, d]) => count(self.timecode(r, c)? + self.timecode(s, d)?),
            (b"sub", [r, c, s, d]) => count(self.timecode(r, c)? - self.timecode(s, d)?),
            (b"cmp", [r, c, s, d]) => {
                let order = self.timecode(r, c)?.cmp(&self.timecode(s, d)?);
                Some(match order {
                    Ordering::Less => "-1".to_string(),
                    Ordering::Equal => "0".to_string(),
                    Ordering::Greater => "1".to_string(),
                })
            }
            (b"mul", [r, c, p, q]) => {
                let (p, q) = (number(p)?, number(q)?);
                count(self.timecode(r, c)? * Rational64::new(p, q))
            }
            (b"div", [r, c, n]) => {
                let n = number(n)?;
                count(self.timecode(r, c)? / n)
            }
            (b"rem", [r, c, n]) => {
                let n = number(n)?;
                count(self.timecode(r, c)? % n)
            }
            (b"divq", [r, c, p, q]) => {
                let (p, q) = (number(p)?, number(q)?);
                count(self.timecode(r, c)? / Rational64::new(p, q))
            }
            (b"remq", [r, c, p, q]) => {
                let (p, q) = (number(p)?, number(q)?);
                count(self.timecode(r, c)? % Rational64::new(p, q))
            }
            (b"neg", [r, c]) => count(-self.timecode(r, c)?),
            (b"abs", [r, c]) => count(self.timecode(r, c)?.abs()),
            (b"rebase", [r, c, s]) => {
                let rate = self.rate(s)?;
                count(self.timecode(r, c)?.rebase(rate))
            }
            (b"convert", [r, c, list @ ..]) => {
                let steps: Option<Vec<Framerate>> = list.iter().map(|word| self.rate(word)).collect();
                let mut timecode = self.timecode(r, c)?;
                for rate in steps? {
                    timecode = Timecode::with_seconds(timecode.seconds(), rate).expect("a fraction is always taken");
                }
                let last = list.last().unwrap_or(r);
                Some(format!("{} {}", timecode.frames(), number(last)?))
            }
            _ => None,
        }
    }
}

fn main() -> io::Result<()> {
    let judge = Judge { rates: crate_rates() };
    panic::set_hook(Box::new(|_| {}));

    let mut input = BufReader::with_capacity(1 << 16, io::stdin().lock());
    let mut output = BufWriter::with_capacity(1 << 16, io::stdout().lock());
    let mut line = Vec::new();
    while input.read_until(b'\n', &mut line)? > 0 {
        if line.last() == Some(&b'\n') {
            line.pop();
        }
        match panic::catch_unwind(|| judge.answer(&line)) {
            Ok(Some(answer)) => output.write_all(answer.as_bytes())?,
            Ok(None) => output.write_all(b"not understood")?,
            Err(_) => output.write_all(b"panic")?,
        }
        output.write_all(b"\n")?;
        line.clear();
    }
    output.flush()
}
