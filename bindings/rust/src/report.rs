//! The day's report on a sheet: see [`report`](report()).

use alloc::borrow::Cow;
use alloc::string::String;
use alloc::vec;
use alloc::vec::Vec;

use crate::ffi;

/// Room for every report.
const ROOM: usize = 81_920;

/// What a report says in its first line.
#[derive(Debug, Clone, Copy, PartialEq, Eq)]
pub enum Verdict {
    /// Every balance closes, every limit is kept, and the meters agree: the only one that can be signed.
    Closes,
    /// It closes, but the meters disagree.
    Disagrees,
    /// It closes, but no meter is checked.
    Unchecked,
    /// The sums come out, but other volumes may be as good.
    NotCertain,
    /// A balance or a limit is missed.
    DoesNotClose,
    /// There are no volumes.
    Refused {
        /// Why: 9 for a fault of the sheet, else as [`Failure::number`](crate::Failure::number).
        number: u32,
    },
    /// The text is no report.
    Unknown,
}

impl Verdict {
    /// The verdict that a first line tells.
    fn of(line: &[u8]) -> Self {
        match line {
            b"closes" => Self::Closes,
            b"closes, but no meter is checked" => Self::Unchecked,
            b"not certain" => Self::NotCertain,
            b"does not close" => Self::DoesNotClose,
            _ if line.starts_with(b"closes, but the meters disagree") => Self::Disagrees,
            _ => refused_number(line).map_or(Self::Unknown, |number| Self::Refused { number }),
        }
    }

    /// The exit status that the command has for it: 0 closes, 1 not to be signed, 2 refused, 3 no report.
    pub fn status(self) -> u8 {
        match self {
            Self::Closes => 0,
            Self::Disagrees | Self::Unchecked | Self::NotCertain | Self::DoesNotClose => 1,
            Self::Refused { .. } => 2,
            Self::Unknown => 3,
        }
    }
}

/// N of a line `refused N: ..`.
fn refused_number(line: &[u8]) -> Option<u32> {
    let line = core::str::from_utf8(line.strip_prefix(b"refused ")?).ok()?;
    line.split_once(':')?.0.parse().ok()
}

/// A report, byte for byte as the command writes it.
#[derive(Debug, Clone, PartialEq, Eq)]
pub struct Report {
    bytes: Vec<u8>,
}

impl Report {
    /// A report that was stored.
    pub fn stored(bytes: Vec<u8>) -> Self {
        Self { bytes }
    }

    /// All of it.
    pub fn bytes(&self) -> &[u8] {
        &self.bytes
    }

    /// All of it, as text.
    pub fn text(&self) -> Cow<'_, str> {
        String::from_utf8_lossy(&self.bytes)
    }

    /// The first line, without its line feed: the verdict with whom to look at first, or what was refused.
    pub fn first_line(&self) -> &[u8] {
        self.bytes.split(|&byte| byte == b'\n').next().unwrap_or_default()
    }

    /// What the first line says.
    pub fn verdict(&self) -> Verdict {
        Verdict::of(self.first_line())
    }

    /// The sheet, which stands at the end of a report; a refusal has none.
    pub fn sheet(&self) -> Option<&[u8]> {
        let mut rest = &self.bytes[..];
        loop {
            let end = rest.iter().position(|&byte| byte == b'\n')?;
            let line = &rest[..end];
            rest = &rest[end + 1..];
            if let Some(words) = line.strip_prefix(b"sheet of ") {
                let count = core::str::from_utf8(words.strip_suffix(b" bytes")?).ok()?;
                return (count.parse() == Ok(rest.len())).then_some(rest);
            }
        }
    }
}

/// The report on a day's sheet, what the command `day` writes for these bytes. Leave it 128 KiB of stack
/// (include/gritstrut.h).
///
/// ```
/// use gritstrut::report::Verdict;
///
/// let sheet = "\
/// title Header 1, Tuesday (m3)
/// meter generator-A  431250 432450  10
/// meter generator-B  999710 000500  10
/// meter vessel-1     020000 021310  20
/// meter vessel-2     750300 751000   5
/// balance header-1  generator-A generator-B = vessel-1 vessel-2
/// tolerance 0.001
/// ";
/// let report = gritstrut::report(sheet.as_bytes());
/// assert_eq!(report.verdict(), Verdict::Closes);
/// assert_eq!(report.sheet(), Some(sheet.as_bytes()));
/// assert!(report.text().contains("\ncertain to 0.000001 spreads\n"));
///
/// let report = gritstrut::report(b"nonsense");
/// assert_eq!(report.verdict(), Verdict::Refused { number: 9 });
/// ```
///
/// # Panics
///
/// Where the library that was linked wants more room than 0.3.0 does.
pub fn report(sheet: &[u8]) -> Report {
    let (mut bytes, mut count) = (vec![0; ROOM], 0);
    // SAFETY: both pointers come from slices and go with their lengths, and the one that is written is a slice of its own.
    let number = unsafe { ffi::gritstrut_report(sheet.as_ptr(), sheet.len(), bytes.as_mut_ptr(), bytes.len(), &mut count) };
    assert_eq!(number, 0, "{ROOM} bytes are room for every report");
    bytes.truncate(count);
    Report { bytes }
}

#[cfg(test)]
mod tests {
    use super::*;

    #[test]
    fn first_lines() {
        let refused = Verdict::Refused { number: 11 };
        for (line, verdict, status) in [
            ("closes", Verdict::Closes, 0),
            ("closes, but the meters disagree: look at a or b first", Verdict::Disagrees, 1),
            ("closes, but the meters disagree", Verdict::Disagrees, 1),
            ("closes, but no meter is checked", Verdict::Unchecked, 1),
            ("not certain", Verdict::NotCertain, 1),
            ("does not close", Verdict::DoesNotClose, 1),
            ("refused 11: h depends on the other balances", refused, 2),
            ("closes,", Verdict::Unknown, 3),
            ("refused: KEPT is there already", Verdict::Unknown, 3),
            ("", Verdict::Unknown, 3),
        ] {
            let report = Report::stored(line.bytes().chain(*b"\nmore").collect());
            assert_eq!((report.verdict(), report.verdict().status()), (verdict, status), "{line}");
        }
    }

    #[test]
    fn sheets_inside() {
        let stored = |text: &str| Report::stored(text.into());
        assert_eq!(stored("closes\n\nsheet of 3 bytes\na\nb").sheet(), Some(&b"a\nb"[..]));
        assert_eq!(stored("closes\n\nsheet of 0 bytes\n").sheet(), Some(&b""[..]));
        assert_eq!(stored("closes\n\nsheet of 4 bytes\na\nb").sheet(), None);
        assert_eq!(stored("refused 7: x\n").sheet(), None);
    }
}
