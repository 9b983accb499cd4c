//! The C interface, said once: one table, from which the type of a library, a call of it, the
//! functions over the Rust files and (in the driver) the declarations of a linked one are made.

use crate::lent::{Lent, read, serve};
use reference::call::{Edge, Kernels};
use reference::day;
use reference::shape::Op;

/// Hands the table of the lent operations to a macro. A row: the operation, its function, its
/// symbol, its sizes, its slices (pointer, length, role), a value that is given between slices, its
/// single results or a value that is given there, the slice that comes after these, and the tally.
#[macro_export]
macro_rules! interface {
    ($apply:ident) => {
        $apply! {
            Qr qr "gritstrut_qr" [m n]
                (a a_len read) (r r_len write) (perm perm_len index) (u u_len write)
                (b b_len write) {rank count};
            Nnls nnls "gritstrut_nnls" [m n k]
                (a a_len read) (b b_len read) (x x_len write) {rounds count} {factorings count};
            Ldp ldp "gritstrut_ldp" [m n]
                (g g_len read) (h h_len read) (x x_len write) (multipliers l_len write);
            Lsi lsi "gritstrut_lsi" [n me mg]
                (e e_len read) (f f_len read) (g g_len read) (h h_len read)
                (x x_len write) (multipliers l_len write) {place count};
            Lsei lsei "gritstrut_lsei" [n mc me mg]
                (c c_len read) (d d_len read) (e e_len read) (f f_len read) (g g_len read)
                (h h_len read) (x x_len write) (multipliers l_len write) {place count};
            Identity identity "gritstrut_identity" [n] (b b_len write);
            Times times "gritstrut_times" [n]
                (b b_len read) (v v_len read) (out out_len write);
            Cholesky cholesky "gritstrut_cholesky" [n] (b b_len read) (l l_len write);
            Update update "gritstrut_update" [n]
                (b b_len both) (s s_len read) (y y_len read);
            PackedIdentity packed_identity "gritstrut_packed_identity" [n] (b b_len write);
            PackedTimes packed_times "gritstrut_packed_times" [n]
                (b b_len read) (v v_len read) (out out_len write);
            PackedCholesky packed_cholesky "gritstrut_packed_cholesky" [n]
                (b b_len read) (l l_len write);
            PackedUpdate packed_update "gritstrut_packed_update" [n]
                (b b_len both) (s s_len read) (y y_len read);
            Step step "gritstrut_step" [n m]
                (factor factor_len read) (gradient gradient_len read) (kinds kinds_len kind)
                (values values_len read) (widths widths_len read) (jacobian jacobian_len read)
                (lower lower_len read) (upper upper_len read) (d d_len write) (multipliers l_len write)
                {relaxation real} [report report_len index] <tally>;
            Reconcile reconcile "gritstrut_reconcile" [n m]
                (before before_len reading) (after after_len reading) (spreads spreads_len read)
                (balances balances_len read) (volumes volumes_len write) (named named_len mark)
                {place count};
            StrictStep strict_step "gritstrut_strict_step" [n m]
                (factor factor_len read) (gradient gradient_len read) (kinds kinds_len kind)
                (values values_len read) (widths widths_len read) (jacobian jacobian_len read)
                (lower lower_len read) (upper upper_len read) (d d_len write) (multipliers l_len write)
                {relaxation real} [report report_len index] <tally>;
            Check check "gritstrut_check" [n m]
                (factor factor_len read) (gradient gradient_len read) (kinds kinds_len kind)
                (values values_len read) (widths widths_len read) (jacobian jacobian_len read)
                (lower lower_len read) (upper upper_len read) (d d_len read)
                (multipliers l_len read) (lowers lowers_len read) (uppers uppers_len read)
                {tolerance given} [verdict verdict_len index];
            Suspect suspect "gritstrut_suspect" [n m]
                (values values_len read) (spreads spreads_len read) (balances balances_len read)
                (still still_len kind) (numbers numbers_len write) (groups groups_len index)
                (marks marks_len second) {misfit real} {finding found} {place count};
            Settle settle "gritstrut_settle" [n m p]
                (values values_len read) (spreads spreads_len read) (balances balances_len read)
                (limits limits_len read) (least least_len read) |tolerance|
                (settled settled_len write) (multipliers l_len write) {bound real} {place count};
            Certify certify "gritstrut_certify" [n m p]
                (values values_len read) (spreads spreads_len read) (balances balances_len read)
                (limits limits_len read) (least least_len read) (settled settled_len read)
                (multipliers l_len read) {bound real} {place count};
        }
    };
}

/// The C type of a slice's pointer or a single result, by its role.
#[macro_export]
macro_rules! pointer {
    (read) => { *const f64 };
    (kind) => { *const u8 };
    (reading) => { *const u32 };
    (mark) => { *mut u8 };
    (write) => { *mut f64 };
    (both) => { *mut f64 };
    (index) => { *mut u32 };
    (second) => { *mut u32 };
    (found) => { *mut [u32; 4] };
    (count) => { *mut u32 };
    (real) => { *mut f64 };
    (given) => { f64 };
    (tally) => { *mut [u64; 2] };
}

/// Counts sizes.
macro_rules! count_size {
    ($size:ident) => {
        usize
    };
}

/// The type of a value that is given between slices.
#[macro_export]
macro_rules! between {
    ($given:ident) => {
        f64
    };
}

/// What a call passes: each method answers the next slice or place of its role.
pub trait Lender {
    fn size(&mut self) -> usize;
    fn read(&mut self) -> (*const f64, usize);
    fn kind(&mut self) -> (*const u8, usize);
    fn reading(&mut self) -> (*const u32, usize);
    fn mark(&mut self) -> (*mut u8, usize);
    fn write(&mut self) -> (*mut f64, usize);
    fn both(&mut self) -> (*mut f64, usize);
    fn index(&mut self) -> (*mut u32, usize);
    fn second(&mut self) -> (*mut u32, usize);
    fn found(&mut self) -> *mut [u32; 4];
    fn count(&mut self) -> *mut u32;
    fn real(&mut self) -> *mut f64;
    fn given(&mut self) -> f64;
    fn tally(&mut self) -> *mut [u64; 2];
    fn workspace(&mut self) -> (*mut f64, usize);
    fn index_workspace(&mut self) -> (*mut u32, usize);
}

/// Gathers a call's arguments by their roles.
#[derive(Default)]
struct Arguments {
    inputs: Vec<Vec<f64>>,
    kinds: Vec<u8>,
    outputs: Vec<(*mut f64, usize)>,
    words: Option<(*mut u32, usize)>,
    seconds: Option<(*mut u32, usize)>,
    found: Option<*mut [u32; 4]>,
    marks: Option<(*mut u8, usize)>,
    counts: Vec<*mut u32>,
    value: Option<*mut f64>,
    tally: Option<*mut [u64; 2]>,
}

impl Arguments {
    unsafe fn read(&mut self, data: *const f64, len: usize) {
        self.inputs.push(unsafe { read(data, len) });
    }
    unsafe fn kind(&mut self, data: *const u8, len: usize) {
        self.kinds = unsafe { read(data, len) };
    }
    unsafe fn reading(&mut self, data: *const u32, len: usize) {
        let readings = unsafe { read(data, len) };
        self.inputs.push(readings.into_iter().map(day::stored).collect());
    }
    unsafe fn mark(&mut self, data: *mut u8, len: usize) {
        self.marks = Some((data, len));
    }
    unsafe fn write(&mut self, data: *mut f64, len: usize) {
        self.outputs.push((data, len));
    }
    unsafe fn both(&mut self, data: *mut f64, len: usize) {
        unsafe { self.read(data, len) };
        self.outputs.push((data, len));
    }
    unsafe fn index(&mut self, data: *mut u32, len: usize) {
        self.words = Some((data, len));
    }
    unsafe fn second(&mut self, data: *mut u32, len: usize) {
        self.seconds = Some((data, len));
    }
    fn found(&mut self, place: *mut [u32; 4]) {
        self.found = Some(place);
    }
    fn count(&mut self, place: *mut u32) {
        self.counts.push(place);
    }
    fn real(&mut self, place: *mut f64) {
        self.value = Some(place);
    }
    fn given(&mut self, value: f64) {
        self.inputs.push(vec![value]);
    }
    fn tally(&mut self, place: *mut [u64; 2]) {
        self.tally = Some(place);
    }

    unsafe fn answer<K: Kernels, E: Edge>(
        self,
        op: Op,
        sizes: &[usize],
        w: (*mut f64, usize),
        iw: (*mut u32, usize),
    ) -> u32 {
        let mut lent = Lent::new(&self.outputs, w, iw);
        lent.words = self.words.unwrap_or(lent.words);
        lent.marks = self.marks;
        (lent.seconds, lent.found) = (self.seconds, self.found);
        (lent.counts, lent.value, lent.tally) = (self.counts, self.value, self.tally);
        unsafe { serve::<K, E>(op, sizes, self.inputs, self.kinds, lent) }
    }
}

macro_rules! define {
    ($($op:ident $name:ident $symbol:tt [$($size:ident)*]
        $(($data:ident $len:ident $role:ident))*
        $(|$given:ident| $(($more:ident $more_len:ident $more_role:ident))*)?
        $({$place:ident $what:ident})* $([$last:ident $last_len:ident $last_role:ident])? $(<$tally:ident>)?;)*) => {
        /// A library's functions, by operation.
        #[derive(Clone, Copy)]
        pub struct Library {
            pub sqrt: unsafe extern "C" fn(f64) -> f64,
            pub sum: unsafe extern "C" fn(*const f64, usize) -> f64,
            pub norm: unsafe extern "C" fn(*const f64, usize) -> f64,
            $(pub $name: unsafe extern "C" fn(
                $(count_size!($size),)* $(pointer!($role), usize,)*
                $(between!($given), $(pointer!($more_role), usize,)*)? $(pointer!($what),)*
                $(pointer!($last_role), usize,)? $(pointer!($tally),)?
                *mut f64, usize, *mut u32, usize,
            ) -> u32,)*
        }

        /// The lent operations and their symbols.
        pub const INTERFACE: &[(Op, &str)] = &[$((Op::$op, $symbol)),*];

        impl Library {
            /// Calls a lent operation with what the lender passes.
            ///
            /// # Safety
            /// All that is lent is good for so many reads and writes.
            pub unsafe fn call(&self, op: Op, lender: &mut impl Lender) -> u32 {
                match op {
                    $(Op::$op => {
                        $(let $size = lender.size();)*
                        $(let ($data, $len) = lender.$role();)*
                        $(let $given = lender.given();
                        $(let ($more, $more_len) = lender.$more_role();)*)?
                        $(let $place = lender.$what();)*
                        $(let ($last, $last_len) = lender.$last_role();)?
                        $(let $tally = lender.$tally();)?
                        let ((w, w_len), (iw, iw_len)) =
                            (lender.workspace(), lender.index_workspace());
                        unsafe {
                            (self.$name)(
                                $($size,)* $($data, $len,)* $($given, $($more, $more_len,)*)?
                                $($place,)* $($last, $last_len,)?
                                $($tally,)?
                                w, w_len, iw, iw_len,
                            )
                        }
                    })*
                    Op::Sqrt | Op::Sum | Op::Norm => unreachable!("not lent"),
                }
            }
        }

        $(#[allow(clippy::too_many_arguments)]
        unsafe extern "C" fn $name<K: Kernels, E: Edge>(
            $($size: usize,)* $($data: pointer!($role), $len: usize,)*
            $($given: f64, $($more: pointer!($more_role), $more_len: usize,)*)?
            $($place: pointer!($what),)*
            $($last: pointer!($last_role), $last_len: usize,)? $($tally: pointer!($tally),)?
            w: *mut f64, w_len: usize, iw: *mut u32, iw_len: usize,
        ) -> u32 {
            #[allow(unused_mut)]
            let mut arguments = Arguments::default();
            unsafe {
                $(arguments.$role($data, $len);)*
                $(arguments.given($given);
                $(arguments.$more_role($more, $more_len);)*)?
                $(arguments.$what($place);)*
                $(arguments.$last_role($last, $last_len);)?
                $(arguments.$tally($tally);)?
                arguments.answer::<K, E>(Op::$op, &[$($size),*], (w, w_len), (iw, iw_len))
            }
        })*

        /// The library over the Rust files.
        pub fn library<K: Kernels, E: Edge>() -> Library {
            Library { sqrt: sqrt::<E>, sum: sum::<E>, norm: norm::<E>, $($name: $name::<K, E>,)* }
        }
    };
}

interface!(define);

unsafe extern "C" fn sqrt<E: Edge>(x: f64) -> f64 {
    E::sqrt(x)
}

unsafe extern "C" fn sum<E: Edge>(x: *const f64, x_len: usize) -> f64 {
    E::sum(unsafe { std::slice::from_raw_parts(x, x_len) })
}

unsafe extern "C" fn norm<E: Edge>(x: *const f64, x_len: usize) -> f64 {
    E::norm(unsafe { std::slice::from_raw_parts(x, x_len) })
}
