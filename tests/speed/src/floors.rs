//! The floors of the smallest calls: what a C call takes that has the same parameters and only returns, timed in the same run.
use crate::alone::timed;
use crate::flavors;
use crate::measure::{INPUTS, Timed};
use crate::table::Row;
use crate::values::{Lent, Values, dense, scalars};
use uiua_parser::Flavor::Projective;

/// A row of a few nanoseconds: much of that is the C call itself, while the Rust's is compiled into its caller. How its floor is timed; up to
/// which d it is so small; and how many nanoseconds above the floor it may take where it takes more than the Rust.
pub struct Small {
    pub floor: Row,
    pub last: u8,
    pub more: f64,
}

/// Stands for the exports: their names and, as is checked, their parameters. What only returns is called by an address that is read anew at
/// each call, as an export's is, so the compiler does not see what is called.
mod sys {
    macro_rules! returns {
        ($($call:ident($($name:ident: $type:ty),*) -> $number:ty;)*) => { $(
            #[inline(always)]
            pub unsafe fn $call($($name: $type),*) -> $number {
                type Call = unsafe extern "C" fn($($type),*) -> $number;
                #[inline(never)]
                unsafe extern "C" fn only_returns($(_: $type),*) -> $number {
                    0
                }
                static AT: Call = only_returns;
                const _: Call = crate::sys::$call;
                unsafe { (&raw const AT).read_volatile()($($name),*) }
            }
        )* };
    }
    #[rustfmt::skip]
    returns! {
        thresholm_metric(flavor: *const u8, index: u8) -> i8;
        thresholm_added_dims(flavor: *const u8) -> u8;
        thresholm_scalar_test(shape: *const u8, a: *const f64, a_len: usize, to_test: *mut u8, to_re: *mut f64, to_im: *mut f64) -> u8;
        thresholm_eq(left: *const u8, right: *const u8, a: *const f64, a_len: usize, b: *const f64, b_len: usize, to_yes: *mut u8) -> u8;
        thresholm_cmp(left: *const u8, right: *const u8, a: *const f64, a_len: usize, b: *const f64, b_len: usize, to_order: *mut i8) -> u8;
    }
}

fn metric(_: u8) -> Timed {
    let (_, given) = flavors::every();
    timed(0, move |i, to| {
        to.order = unsafe { sys::thresholm_metric(given[i].as_ptr(), i as u8 % 9) };
        0
    })
}

fn added_dims(_: u8) -> Timed {
    let (_, given) = flavors::every();
    timed(0, move |i, to| {
        to.test = unsafe { sys::thresholm_added_dims(given[i].as_ptr()) };
        0
    })
}

fn scalar_test(d: u8) -> Timed {
    let v = scalars(Projective, d);
    timed(d, asked!(thresholm_scalar_test, v; test, value, imaginary))
}

fn eq(v: Values) -> Timed {
    timed(v.dims(), compared!(thresholm_eq, v, v, 1; test))
}

fn cmp(v: Values) -> Timed {
    timed(v.dims(), compared!(thresholm_cmp, v, v, 1; order))
}

const fn small(call: &'static str, of: &'static str, at: fn(u8) -> Timed, last: u8, more: f64) -> Small {
    Small { floor: Row { call, of, at }, last, more }
}

/// Beside each what was measured at d = 2 on an AMD EPYC, in nanoseconds: the floor, ours, the Rust's. A floor moves by a cycle or two, 0.27 each.
#[rustfmt::skip]
pub const SMALL: &[Small] = &[
    small("metric", "every kind in rotation", metric, 2, 1.3), // 1.35 to 1.89, 2.58, 1.81
    small("added_dims", "every kind in rotation", added_dims, 2, 0.3), // 1.35 to 1.62, 1.35, 0.61
    small("scalar_test", "a scalar", scalar_test, 2, 2.0), // 1.35 to 1.89, 3.31, 3.08
    small("eq", "no scalars", |d| eq(dense(Projective, d)), 9, 2.2), // 1.57 to 1.89, 3.52, 2.74
    small("cmp", "different values", |d| cmp(dense(Projective, d)), 9, 2.1), // 1.62 to 1.89, 3.40, 3.30
];
