//! A day's volumes: reconciled, settled, certified, and the tests of meters.

use alloc::vec;
use alloc::vec::Vec;

use crate::ffi::Finding;
use crate::{ffi, Failure, Workspace};

/// A day by totaliser readings of six digits.
#[derive(Debug, Clone, Copy, PartialEq, Default)]
pub struct Readings<'a> {
    /// The readings before, from 0 to 999,999.
    pub before: &'a [u32],
    /// The readings after; one below the one before it has rolled over.
    pub after: &'a [u32],
    /// How far each volume may well be off.
    pub spreads: &'a [f64],
    /// The balances, a row of coefficients each.
    pub balances: &'a [f64],
}

/// Corrected volumes.
#[derive(Debug, Clone, PartialEq)]
pub struct Reconciled {
    /// A volume for each meter.
    pub volumes: Vec<f64>,
    /// Which meters to look at: their volume is below zero, or NaN.
    pub named: Vec<bool>,
}

/// A day by measured values, of any sign.
#[derive(Debug, Clone, Copy, PartialEq)]
pub struct Day<'a> {
    /// The values as measured.
    pub values: &'a [f64],
    /// Their spreads.
    pub spreads: &'a [f64],
    /// The balances, a row of coefficients each, whose sums are wanted zero.
    pub balances: &'a [f64],
    /// The limits, a row each, whose sums are wanted at least ..
    pub limits: &'a [f64],
    /// .. this. A ceiling is a row with its signs changed.
    pub least: &'a [f64],
    /// How much a sum may miss.
    pub tolerance: f64,
    /// Whether a limit at zero is added for each value, after the others.
    pub nonnegative: bool,
}

impl Default for Day<'_> {
    fn default() -> Self {
        Self { values: &[], spreads: &[], balances: &[], limits: &[], least: &[], tolerance: 1e-3, nonnegative: false }
    }
}

/// Settled volumes, and what they rest on.
#[derive(Debug, Clone, PartialEq)]
pub struct Settled {
    /// A volume for each value.
    pub volumes: Vec<f64>,
    /// A multiplier for each balance.
    pub balance_multipliers: Vec<f64>,
    /// A multiplier for each limit, those that were added too.
    pub limit_multipliers: Vec<f64>,
    /// No volumes that are as good lie farther than so many spreads: proved.
    pub bound: f64,
}

/// What the tests of meters find.
#[derive(Debug, Clone, PartialEq)]
pub struct Suspected {
    /// Of each meter's error, what shows in the balances.
    pub shares: Vec<f64>,
    /// The spread of each corrected volume.
    pub spreads: Vec<f64>,
    /// Each correction over its own deviation.
    pub tests: Vec<f64>,
    /// The lowest meter that is not told apart from each.
    pub groups: Vec<usize>,
    /// 2 for a meter to look at first, 1 for one that is suspected too.
    pub marks: Vec<u32>,
    /// The sum of the squares of all corrections in spreads.
    pub misfit: f64,
    /// How many balances are independent.
    pub freedom: usize,
    /// The meter of the largest test.
    pub first: usize,
    /// Whether the meters agree.
    pub agree: bool,
    /// Whether that one meter explains a disagreement.
    pub explained: bool,
}

/// How many rows of so many columns there are; rows of no columns are none.
fn rows(entries: &[f64], columns: usize) -> Result<usize, Failure> {
    match (entries.len(), columns) {
        (0, _) => Ok(0),
        (count, columns) if columns > 0 && count % columns == 0 => Ok(count / columns),
        _ => Err(Failure::Length),
    }
}

impl Day<'_> {
    /// The limits with those that are added: rows and least.
    fn limits(&self) -> (Vec<f64>, Vec<f64>) {
        let (mut limits, mut least) = (self.limits.to_vec(), self.least.to_vec());
        if self.nonnegative {
            let n = self.values.len();
            limits.extend((0..n * n).map(|at| if at / n == at % n { 1.0 } else { 0.0 }));
            least.extend((0..n).map(|_| 0.0));
        }
        (limits, least)
    }

    /// Volumes that can be signed for, with a proved bound. Up to 16 values, 16 balances and 48 limits.
    pub fn settle(&self) -> Result<Settled, Failure> {
        self.settle_in(&mut Workspace::new())
    }

    /// The same, in workspaces that are kept.
    pub fn settle_in(&self, work: &mut Workspace) -> Result<Settled, Failure> {
        let Day { values, spreads, balances, tolerance, .. } = *self;
        if values.len() > 16 {
            return Err(Failure::Size);
        }
        let (limits, least) = self.limits();
        let (n, m, p) = (values.len(), rows(balances, values.len())?, least.len());
        let (mut volumes, mut multipliers) = (vec![0.0; n], vec![0.0; m + p]);
        let (mut bound, mut place) = (0.0, 0);
        // SAFETY: every pointer comes from a slice and goes with its length, and no two written slices are one.
        #[rustfmt::skip]
        let number = unsafe {
            ffi::gritstrut_settle(
                n, m, p, values.as_ptr(), values.len(), spreads.as_ptr(), spreads.len(), balances.as_ptr(), balances.len(),
                limits.as_ptr(), limits.len(), least.as_ptr(), least.len(), tolerance, volumes.as_mut_ptr(), volumes.len(),
                multipliers.as_mut_ptr(), multipliers.len(), &mut bound, &mut place,
                work.w.as_mut_ptr(), work.w.len(), work.iw.as_mut_ptr(), work.iw.len(),
            )
        };
        Failure::unless_done(number, place)?;
        let limit_multipliers = multipliers.split_off(m);
        Ok(Settled { volumes, balance_multipliers: multipliers, limit_multipliers, bound })
    }

    /// The bound of volumes and multipliers from anywhere: `settled.bound` is not read.
    pub fn certify(&self, settled: &Settled) -> Result<f64, Failure> {
        let Day { values, spreads, balances, .. } = *self;
        if values.len() > 16 {
            return Err(Failure::Size);
        }
        let (limits, least) = self.limits();
        let (n, m, p) = (values.len(), rows(balances, values.len())?, least.len());
        let multipliers = [&settled.balance_multipliers[..], &settled.limit_multipliers[..]].concat();
        let (mut bound, mut place, mut work) = (0.0, 0, Workspace::new());
        // SAFETY: as above.
        #[rustfmt::skip]
        let number = unsafe {
            ffi::gritstrut_certify(
                n, m, p, values.as_ptr(), values.len(), spreads.as_ptr(), spreads.len(), balances.as_ptr(), balances.len(),
                limits.as_ptr(), limits.len(), least.as_ptr(), least.len(),
                settled.volumes.as_ptr(), settled.volumes.len(), multipliers.as_ptr(), multipliers.len(),
                &mut bound, &mut place, work.w.as_mut_ptr(), work.w.len(), work.iw.as_mut_ptr(), work.iw.len(),
            )
        };
        Failure::unless_done(number, place)?;
        Ok(bound)
    }

    /// Which meter may be wrong: values, spreads and balances are read, limits are not seen. `still` names the meters that
    /// stand still, or is empty.
    pub fn suspect(&self, still: &[bool]) -> Result<Suspected, Failure> {
        let Day { values, spreads, balances, .. } = *self;
        let (n, m) = (values.len(), rows(balances, values.len())?);
        let still: Vec<u8> = if still.is_empty() { vec![0; n] } else { still.iter().map(|&still| u8::from(still)).collect() };
        let (mut numbers, mut groups, mut marks) = (vec![0.0; n.saturating_mul(3)], vec![0; n], vec![0; n]);
        let (mut misfit, mut finding, mut place, mut work) = (0.0, Finding::default(), 0, Workspace::new());
        // SAFETY: as above.
        #[rustfmt::skip]
        let number = unsafe {
            ffi::gritstrut_suspect(
                n, m, values.as_ptr(), values.len(), spreads.as_ptr(), spreads.len(), balances.as_ptr(), balances.len(),
                still.as_ptr(), still.len(), numbers.as_mut_ptr(), numbers.len(), groups.as_mut_ptr(), groups.len(),
                marks.as_mut_ptr(), marks.len(), &mut misfit, &mut finding, &mut place,
                work.w.as_mut_ptr(), work.w.len(), work.iw.as_mut_ptr(), work.iw.len(),
            )
        };
        Failure::unless_done(number, place)?;
        let tests = numbers.split_off(2 * n);
        let left = numbers.split_off(n);
        let groups = groups.into_iter().map(|group: u32| group as usize).collect();
        Ok(Suspected {
            shares: numbers,
            spreads: left,
            tests,
            groups,
            marks,
            misfit,
            freedom: finding.freedom as usize,
            first: finding.first as usize,
            agree: finding.agree == 1,
            explained: finding.explained == 1,
        })
    }
}

impl Readings<'_> {
    /// The least corrections with which every balance comes to zero. Up to 16 meters and 16 balances.
    ///
    /// ```
    /// let day = gritstrut::Readings {
    ///     before: &[431250, 999710, 20000, 750300],
    ///     after: &[432450, 500, 21310, 751000],
    ///     spreads: &[10.0, 10.0, 20.0, 5.0],
    ///     balances: &[1.0, 1.0, -1.0, -1.0],
    /// };
    /// assert!((day.reconcile()?.volumes[1] - 793.2).abs() < 1e-9);
    /// # Ok::<(), gritstrut::Failure>(())
    /// ```
    pub fn reconcile(&self) -> Result<Reconciled, Failure> {
        let Readings { before, after, spreads, balances } = *self;
        let (n, m) = (before.len(), rows(balances, before.len())?);
        let (mut volumes, mut named) = (vec![0.0; n], vec![0; n]);
        let (mut place, mut work) = (0, Workspace::new());
        // SAFETY: as above.
        #[rustfmt::skip]
        let number = unsafe {
            ffi::gritstrut_reconcile(
                n, m, before.as_ptr(), before.len(), after.as_ptr(), after.len(), spreads.as_ptr(), spreads.len(),
                balances.as_ptr(), balances.len(), volumes.as_mut_ptr(), volumes.len(), named.as_mut_ptr(), named.len(),
                &mut place, work.w.as_mut_ptr(), work.w.len(), work.iw.as_mut_ptr(), work.iw.len(),
            )
        };
        Failure::unless_done(number, place)?;
        Ok(Reconciled { volumes, named: named.into_iter().map(|mark: u8| mark == 1).collect() })
    }
}
