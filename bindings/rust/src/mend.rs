//! The mending of a day's logger records.

use alloc::vec;
use alloc::vec::Vec;

use crate::{ffi, Failure};

/// What becomes of a record.
#[derive(Debug, Clone, Copy, PartialEq, Eq)]
pub enum Reason {
    /// It is kept.
    Kept,
    /// The last record has fewer than 16 bytes.
    Short,
    /// A spare byte is not zero.
    Spare,
    /// The meter is over 15.
    Meter,
    /// The reading is over 999,999.
    Reading,
    /// The minute is not later than that of the meter's last kept record.
    Minute,
}

/// Mended records.
#[derive(Debug, Clone, PartialEq, Eq)]
pub struct Mended {
    /// The sound records, in order.
    pub kept: Vec<u8>,
    /// What became of each record.
    pub reasons: Vec<Reason>,
    /// The sum of the volumes between kept neighbours, by meter.
    pub totals: [u64; 16],
    /// How often each meter passed 999,999.
    pub rollovers: [u64; 16],
    /// Which meters have a kept record.
    pub meters: [bool; 16],
}

/// Mends a day's records of 16 bytes: meter (2), zero (2), minute (4), reading (4), zero (4), little-endian.
///
/// ```
/// let mended = gritstrut::mend(b"cut")?;
/// assert_eq!((mended.kept.len(), mended.reasons), (0, vec![gritstrut::Reason::Short]));
/// # Ok::<(), gritstrut::Failure>(())
/// ```
pub fn mend(records: &[u8]) -> Result<Mended, Failure> {
    let (mut kept, mut reasons) = (vec![0; records.len()], vec![0; records.len().div_ceil(16)]);
    let (mut totals, mut rollovers, mut bytes, mut meters) = ([0; 16], [0; 16], 0, 0);
    // SAFETY: every pointer comes from a slice and goes with its length, and no two written slices are one.
    #[rustfmt::skip]
    let number = unsafe {
        ffi::gritstrut_mend(
            records.as_ptr(), records.len(), kept.as_mut_ptr(), kept.len(), reasons.as_mut_ptr(), reasons.len(),
            totals.as_mut_ptr(), totals.len(), rollovers.as_mut_ptr(), rollovers.len(), &mut bytes, &mut meters,
        )
    };
    Failure::unless_done(number, 0)?;
    kept.truncate(bytes);
    let reason = |byte: u8| match byte {
        0 => Reason::Kept,
        1 => Reason::Short,
        2 => Reason::Spare,
        3 => Reason::Meter,
        4 => Reason::Reading,
        _ => Reason::Minute,
    };
    let reasons = reasons.into_iter().map(reason).collect();
    Ok(Mended { kept, reasons, totals, rollovers, meters: core::array::from_fn(|meter| meters >> meter & 1 == 1) })
}
