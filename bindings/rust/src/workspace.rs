//! What every call is lent.

use alloc::vec;
use alloc::vec::Vec;

const FLOATS: usize = 8192;
const WORDS: usize = 512;

/// The two workspaces that a call is lent, 66 KiB. What they hold does not matter, so one serves any calls, one after the
/// other.
#[derive(Debug, Clone)]
pub struct Workspace {
    pub(crate) w: Vec<f64>,
    pub(crate) iw: Vec<u32>,
}

impl Workspace {
    /// New workspaces.
    pub fn new() -> Self {
        Self { w: vec![0.0; FLOATS], iw: vec![0; WORDS] }
    }
}

impl Default for Workspace {
    fn default() -> Self {
        Self::new()
    }
}
