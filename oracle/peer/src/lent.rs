//! What a call is lent, and what it leaves there.

use reference::call::{Answer, Call, Edge, Kernels, answer};
use reference::shape::Op;
use std::panic;
use std::slice;

/// The number of a run that broke down or did not end; no sound one has it.
const BROKEN: u32 = 99;

/// Everything that a call may write.
pub struct Lent {
    pub outputs: Vec<(*mut f64, usize)>,
    pub words: (*mut u32, usize),
    pub marks: Option<(*mut u8, usize)>,
    pub seconds: Option<(*mut u32, usize)>,
    pub found: Option<*mut [u32; 4]>,
    pub counts: Vec<*mut u32>,
    pub value: Option<*mut f64>,
    pub tally: Option<*mut [u64; 2]>,
    pub w: (*mut f64, usize),
    pub iw: (*mut u32, usize),
}

impl Lent {
    /// Outputs and workspaces alone.
    pub fn new(outputs: &[(*mut f64, usize)], w: (*mut f64, usize), iw: (*mut u32, usize)) -> Self {
        let words = (std::ptr::NonNull::dangling().as_ptr(), 0);
        let (outputs, counts) = (outputs.to_vec(), vec![]);
        Self {
            outputs,
            words,
            marks: None,
            seconds: None,
            found: None,
            counts,
            value: None,
            tally: None,
            w,
            iw,
        }
    }
}

/// A copy of a slice that was passed as pointer and length.
///
/// # Safety
/// The pointer is good for so many reads.
pub unsafe fn read<T: Clone>(data: *const T, len: usize) -> Vec<T> {
    unsafe { slice::from_raw_parts(data, len) }.to_vec()
}

/// Writes values into a slice: all of them, but where a slip takes one that is too short.
unsafe fn write<T: Copy>(lent: (*mut T, usize), values: &[T]) {
    let entries = lent.1.min(values.len());
    unsafe { slice::from_raw_parts_mut(lent.0, entries) }.copy_from_slice(&values[..entries]);
}

unsafe fn clear<T: Copy>(lent: (*mut T, usize), entries: usize, zero: T) {
    let entries = entries.min(lent.1);
    unsafe { slice::from_raw_parts_mut(lent.0, entries) }.fill(zero);
}

/// Answers a call over the Rust files and leaves the buffers as docs/RULES.md has them.
///
/// # Safety
/// All that is lent is good for so many reads and writes.
pub unsafe fn serve<K: Kernels, E: Edge>(
    op: Op,
    sizes: &[usize],
    inputs: Vec<Vec<f64>>,
    kinds: Vec<u8>,
    lent: Lent,
) -> u32 {
    let call = Call {
        op,
        sizes: sizes.to_vec(),
        inputs,
        kinds,
        outputs: match op {
            _ if op.is_update() => vec![],
            _ => lent.outputs.iter().map(|output| output.1).collect(),
        },
        words: lent.marks.map_or(lent.words.1, |marks| marks.1),
        seconds: lent.seconds.map_or(0, |seconds| seconds.1),
        work: [lent.w.1, lent.iw.1],
    };
    let run = panic::catch_unwind(|| answer::<K, E>(&call));
    let answer = run.unwrap_or(Answer { number: BROKEN, ..Answer::default() });
    unsafe { settle::<E>(&answer, &lent) };
    answer.number
}

unsafe fn settle<E: Edge>(answer: &Answer, lent: &Lent) {
    unsafe {
        for (output, values) in lent.outputs.iter().zip(&answer.outputs) {
            write(*output, values);
        }
        match lent.marks {
            Some(marks) => {
                let values: Vec<u8> = answer.words.iter().map(|&mark| mark as u8).collect();
                write(marks, &values);
            }
            None => write(lent.words, &answer.words),
        }
        if let Some(seconds) = lent.seconds {
            write(seconds, &answer.seconds);
        }
        if let (Some(place), Some(found)) = (lent.found, answer.found) {
            place.write(found);
        }
        for (place, count) in lent.counts.iter().zip(&answer.counts) {
            place.write(*count);
        }
        if let (Some(place), Some(value)) = (lent.value, answer.value) {
            place.write(value);
        }
        if let (Some(place), Some(spent)) = (lent.tally, answer.spent) {
            place.write(E::raised(place.read(), spent));
        }
        if E::clears(answer.number) {
            clear(lent.w, E::CLEARED[0], 0.0);
            clear(lent.iw, E::CLEARED[1], 0);
        }
    }
}
