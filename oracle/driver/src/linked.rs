//! The library under test: what it holds is taken from it, the rest from the peer over the Rust.

use peer::{Library, interface, library};
use reference::Rust;
use reference::call::Sound;
use reference::shape::Op;

/// The path of the library that was linked.
pub const LIBRARY: &str = env!("LIBRARY");

macro_rules! declare {
    ($($op:ident $name:ident $symbol:tt [$($size:ident)*]
        $(($data:ident $len:ident $role:ident))*
        $(|$given:ident| $(($more:ident $more_len:ident $more_role:ident))*)?
        $({$place:ident $what:ident})* $([$last:ident $last_len:ident $last_role:ident])? $(<$tally:ident>)?;)*) => {
        #[allow(dead_code)]
        mod symbols {
            unsafe extern "C" {
                #[cfg(linked = "gritstrut_sqrt")]
                pub fn gritstrut_sqrt(x: f64) -> f64;
                #[cfg(linked = "gritstrut_sum")]
                pub fn gritstrut_sum(x: *const f64, x_len: usize) -> f64;
                #[cfg(linked = "gritstrut_norm")]
                pub fn gritstrut_norm(x: *const f64, x_len: usize) -> f64;
                $(#[cfg(linked = $symbol)]
                #[link_name = $symbol]
                pub fn $name(
                    $($size: usize,)* $($data: peer::pointer!($role), $len: usize,)*
                    $($given: f64, $($more: peer::pointer!($more_role), $more_len: usize,)*)?
                    $($place: peer::pointer!($what),)*
                    $($last: peer::pointer!($last_role), $last_len: usize,)?
                    $($tally: peer::pointer!($tally),)?
                    w: *mut f64, w_len: usize, iw: *mut u32, iw_len: usize,
                ) -> u32;)*
            }
        }

        /// The library under test, and the operations that are its own.
        #[allow(unused_mut)]
        pub fn linked() -> (Library, Vec<Op>) {
            let (mut linked, mut own) = (library::<Rust, Sound>(), Vec::<Op>::new());
            #[cfg(linked = "gritstrut_sqrt")]
            {
                linked.sqrt = symbols::gritstrut_sqrt;
                own.push(Op::Sqrt);
            }
            #[cfg(linked = "gritstrut_sum")]
            {
                linked.sum = symbols::gritstrut_sum;
                own.push(Op::Sum);
            }
            #[cfg(linked = "gritstrut_norm")]
            {
                linked.norm = symbols::gritstrut_norm;
                own.push(Op::Norm);
            }
            $(#[cfg(linked = $symbol)]
            {
                linked.$name = symbols::$name;
                own.push(Op::$op);
            })*
            (linked, own)
        }
    };
}

interface!(declare);
