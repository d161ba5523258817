//! The exported calls: of each its number, the words that go in, what is lent, and its parameters. The table of calls (calls.txt) lists the
//! names that must be here.
use super::given::Given;
use super::lends::Lends;
use super::memory::Memory;
use super::sys;
use crate::arithmetic::*;
use crate::masks::*;
use crate::products::*;
use crate::refusals::ADDED_DIMS;
use crate::replay::REPLAY;
use crate::sheets::{NUMBERS_OF, PATTERNS_OF, READ, VALUE_AT, WRITE};

/// The one call that no line has.
pub const VERSION: u64 = 63;

/// A part of the words that go in.
#[derive(Clone, Copy, PartialEq)]
pub enum Part {
    Dims,
    /// The dimensions beside a flavor, which are not looked at.
    Beside,
    /// Four words: kind, p, n, z.
    Flavor,
    Word(&'static str),
    /// 32 bits, two's complement.
    Power,
    /// All words that are left, each a byte.
    Text,
}

use Part::{Beside, Dims, Flavor, Power, Text, Word};

const NONE: &[Part] = &[];
const ONE_SHAPE: &[Part] = &[Dims, Flavor];
const TWO_SHAPES: &[Part] = &[Dims, Flavor, Dims, Flavor];
const AT: &[Part] = &[Dims, Flavor, Dims];
const MASK: &[Part] = &[Dims, Flavor, Word("mask")];
const ONE_FLAVOR: &[Part] = &[Beside, Flavor];

pub struct Known {
    pub number: u64,
    pub name: &'static str,
    pub parts: &'static [Part],
    pub lends: Lends,
    moves: bool,
    /// Asks the exports; gives what is returned.
    pub ask: fn(&mut Given, &mut Memory) -> i64,
}

impl Known {
    const fn moving(self) -> Known {
        Known { moves: true, ..self }
    }
}

/// What a call returns, as a number.
trait Returned {
    fn number(self) -> i64;
}
impl Returned for u8 {
    fn number(self) -> i64 {
        self.into()
    }
}
impl Returned for i8 {
    fn number(self) -> i64 {
        self.into()
    }
}
impl Returned for u32 {
    fn number(self) -> i64 {
        self.into()
    }
}

/// A call with its parameters in order: `[shape 1]` is the address of the second shape or flavor; `[byte 5]` is word 5; `[in a]` is a list that
/// goes in and `[lent out]` one that is lent, each an address and a count; `[to shape]`, `[to right]` and `[to counts 1]` are references.
macro_rules! call {
    ($number:expr, $parts:expr, $lends:expr, $f:ident: $($rest:tt)*) => {
        Known {
            number: $number,
            name: stringify!($f).split_at("thresholm_".len()).1,
            parts: $parts,
            lends: $lends,
            moves: false,
            ask: |_g, _m| call!(@ _g _m $f () $($rest)*),
        }
    };
    (@ $g:ident $m:ident $f:ident ($($x:expr,)*)) => { unsafe { sys::$f($($x),*) }.number() };
    (@ $g:ident $m:ident $f:ident ($($x:expr,)*) [shape $i:literal] $($rest:tt)*) => {
        call!(@ $g $m $f ($($x,)* $g.shape($i),) $($rest)*)
    };
    (@ $g:ident $m:ident $f:ident ($($x:expr,)*) [byte $i:literal] $($rest:tt)*) => {
        call!(@ $g $m $f ($($x,)* $g.words[$i] as u8,) $($rest)*)
    };
    (@ $g:ident $m:ident $f:ident ($($x:expr,)*) [size $i:literal] $($rest:tt)*) => {
        call!(@ $g $m $f ($($x,)* $g.words[$i] as usize,) $($rest)*)
    };
    (@ $g:ident $m:ident $f:ident ($($x:expr,)*) [power $i:literal] $($rest:tt)*) => {
        call!(@ $g $m $f ($($x,)* $g.words[$i] as u32 as i32,) $($rest)*)
    };
    (@ $g:ident $m:ident $f:ident ($($x:expr,)*) [number] $($rest:tt)*) => {
        call!(@ $g $m $f ($($x,)* $g.number(),) $($rest)*)
    };
    (@ $g:ident $m:ident $f:ident ($($x:expr,)*) [in b] $($rest:tt)*) => {
        call!(@ $g $m $f ($($x,)* $g.right().0, $g.right().1,) $($rest)*)
    };
    (@ $g:ident $m:ident $f:ident ($($x:expr,)*) [in $list:ident] $($rest:tt)*) => {
        call!(@ $g $m $f ($($x,)* $g.$list.start().cast_const(), $g.$list.count(),) $($rest)*)
    };
    (@ $g:ident $m:ident $f:ident ($($x:expr,)*) [lent $list:ident] $($rest:tt)*) => {
        call!(@ $g $m $f ($($x,)* $m.$list.start(), $m.$list.count(),) $($rest)*)
    };
    (@ $g:ident $m:ident $f:ident ($($x:expr,)*) [to shape] $($rest:tt)*) => {
        call!(@ $g $m $f ($($x,)* $m.bytes.at(0),) $($rest)*)
    };
    (@ $g:ident $m:ident $f:ident ($($x:expr,)*) [to right] $($rest:tt)*) => {
        call!(@ $g $m $f ($($x,)* $m.bytes_right.at(0),) $($rest)*)
    };
    (@ $g:ident $m:ident $f:ident ($($x:expr,)*) [to $list:ident $i:literal] $($rest:tt)*) => {
        call!(@ $g $m $f ($($x,)* $m.$list.at($i),) $($rest)*)
    };
}

/// Those that move only move numbers or turn their signs: a NaN's payload is kept by each, and its sign too unless it is turned. So their answers
/// are compared with the bits of NaNs; those of arithmetic, where machines differ, without.
#[rustfmt::skip]
const CALLS: [Known; 59] = [
    call!(VERSION, NONE, Lends::Nothing, thresholm_version:),
    call!(METRIC, &[Beside, Flavor, Word("index")], Lends::Nothing, thresholm_metric: [shape 0] [byte 5]),
    call!(ADDED_DIMS, ONE_FLAVOR, Lends::Nothing, thresholm_added_dims: [shape 0]),
    call!(PROMOTION, &[Beside, Flavor, Beside, Flavor], Lends::Nothing, thresholm_promotion: [shape 0] [shape 1]),
    call!(TRY_FROM_STR, &[Text], Lends::Flavor, thresholm_try_from_str: [in bytes] [to shape]),
    call!(WRITE_TO, ONE_FLAVOR, Lends::Text, thresholm_write_to: [shape 0] [lent text] [to counts 0]),
    call!(BLADE_COUNT, &[Dims], Lends::Count, thresholm_blade_count: [byte 0] [to counts 0]),
    call!(GRADE_SIZE, &[Dims, Word("grade")], Lends::Count, thresholm_grade_size: [byte 0] [byte 1] [to counts 0]),
    call!(ORDER_OF, &[Dims], Lends::Masks, thresholm_order_of: [byte 0] [lent masks] [lent places] [to counts 0]),
    call!(SET_DIMS, AT, Lends::Value, thresholm_set_dims: [shape 0] [byte 5] [in a] [lent out] [to shape]).moving(),
    call!(SET_FLAVOR, &[Dims, Flavor, Beside, Flavor], Lends::Value,
        thresholm_set_flavor: [shape 0] [shape 1] [in a] [lent out] [to shape]).moving(),
    call!(CONFORM_TO, TWO_SHAPES, Lends::Value, thresholm_conform_to: [shape 0] [shape 1] [in a] [lent out] [to shape]).moving(),
    call!(CONFORM, TWO_SHAPES, Lends::Values,
        thresholm_conform: [shape 0] [shape 1] [in a] [in b] [lent out] [lent right] [to shape] [to right]).moving(),
    call!(GET_BLADE, MASK, Lends::Number, thresholm_get_blade: [shape 0] [size 5] [in a] [to values 0]).moving(),
    call!(SET_BLADE, MASK, Lends::Value, thresholm_set_blade: [shape 0] [size 5] [number] [in a] [lent out] [to shape]).moving(),
    call!(GRADE, &[Dims, Flavor, Word("grade")], Lends::Start,
        thresholm_grade: [shape 0] [byte 5] [in a] [to counts 0] [to counts 1]).moving(),
    call!(VECTOR, ONE_FLAVOR, Lends::Value, thresholm_vector: [in a] [shape 0] [lent out] [to shape]).moving(),
    call!(N_1_BLADES, ONE_FLAVOR, Lends::Value, thresholm_n_1_blades: [in a] [shape 0] [lent out] [to shape]).moving(),
    call!(SCALAR, ONE_SHAPE, Lends::Value, thresholm_scalar: [shape 0] [number] [lent out] [to shape]).moving(),
    call!(PSEUDOSCALAR, ONE_SHAPE, Lends::Value, thresholm_pseudoscalar: [shape 0] [number] [lent out] [to shape]).moving(),
    call!(BLADES_LEFT, ONE_SHAPE, Lends::Value, thresholm_blades_left: [shape 0] [in a] [lent out] [to shape]).moving(),
    call!(BLADES_RIGHT, ONE_SHAPE, Lends::Value, thresholm_blades_right: [shape 0] [in a] [lent out] [to shape]).moving(),
    call!(UNPACK_ALL, AT, Lends::List, thresholm_unpack_all: [shape 0] [byte 5] [in a] [lent out] [to counts 0]).moving(),
    call!(UNPACK_EVEN, AT, Lends::List, thresholm_unpack_even: [shape 0] [byte 5] [in a] [lent out] [to counts 0]).moving(),
    call!(UNPACK_ODD, AT, Lends::List, thresholm_unpack_odd: [shape 0] [byte 5] [in a] [lent out] [to counts 0]).moving(),
    call!(UNPACK_OWN_EVEN, ONE_SHAPE, Lends::List, thresholm_unpack_own_even: [shape 0] [in a] [lent out] [to counts 0]).moving(),
    call!(UNPACK_OWN_ODD, ONE_SHAPE, Lends::List, thresholm_unpack_own_odd: [shape 0] [in a] [lent out] [to counts 0]).moving(),
    call!(UNPACK_VECTOR, ONE_SHAPE, Lends::List, thresholm_unpack_vector: [shape 0] [in a] [lent out] [to counts 0]).moving(),
    call!(GENERAL_PRODUCT, TWO_SHAPES, Lends::Product,
        thresholm_general_product: [shape 0] [shape 1] [in a] [in b] [lent out] [to shape] [to pairs 0]),
    call!(LEFT_CONTRACTION, TWO_SHAPES, Lends::Product,
        thresholm_left_contraction: [shape 0] [shape 1] [in a] [in b] [lent out] [to shape] [to pairs 0]),
    call!(RIGHT_CONTRACTION, TWO_SHAPES, Lends::Product,
        thresholm_right_contraction: [shape 0] [shape 1] [in a] [in b] [lent out] [to shape] [to pairs 0]),
    call!(INNER_PRODUCT, TWO_SHAPES, Lends::Product,
        thresholm_inner_product: [shape 0] [shape 1] [in a] [in b] [lent out] [to shape] [to pairs 0]),
    call!(OUTER_PRODUCT, TWO_SHAPES, Lends::Product,
        thresholm_outer_product: [shape 0] [shape 1] [in a] [in b] [lent out] [to shape] [to pairs 0]),
    call!(MUL, TWO_SHAPES, Lends::Value, thresholm_mul: [shape 0] [shape 1] [in a] [in b] [lent out] [to shape]),
    call!(ADD, TWO_SHAPES, Lends::Value, thresholm_add: [shape 0] [shape 1] [in a] [in b] [lent out] [to shape]),
    call!(SUB, TWO_SHAPES, Lends::Value, thresholm_sub: [shape 0] [shape 1] [in a] [in b] [lent out] [to shape]),
    call!(DIV, TWO_SHAPES, Lends::Value, thresholm_div: [shape 0] [shape 1] [in a] [in b] [lent out] [to shape]),
    call!(REGRESSIVE_PRODUCT, TWO_SHAPES, Lends::Value,
        thresholm_regressive_product: [shape 0] [shape 1] [in a] [in b] [lent out] [to shape]),
    call!(MUL_F64, ONE_SHAPE, Lends::Value, thresholm_mul_f64: [shape 0] [number] [in a] [lent out] [to shape]),
    call!(DIV_F64, ONE_SHAPE, Lends::Value, thresholm_div_f64: [shape 0] [number] [in a] [lent out] [to shape]),
    call!(NEG, ONE_SHAPE, Lends::Value, thresholm_neg: [shape 0] [in a] [lent out] [to shape]).moving(),
    call!(REVERSE, ONE_SHAPE, Lends::Value, thresholm_reverse: [shape 0] [in a] [lent out] [to shape]).moving(),
    call!(INV_REVERSE, ONE_SHAPE, Lends::Value, thresholm_inv_reverse: [shape 0] [in a] [lent out] [to shape]).moving(),
    call!(DUAL, ONE_SHAPE, Lends::Value, thresholm_dual: [shape 0] [in a] [lent out] [to shape]),
    call!(ANTIDUAL, ONE_SHAPE, Lends::Value, thresholm_antidual: [shape 0] [in a] [lent out] [to shape]),
    call!(INVERTED, ONE_SHAPE, Lends::Value, thresholm_inverted: [shape 0] [in a] [lent out] [to shape]),
    call!(MAKE_SCALAR_ONLY, ONE_SHAPE, Lends::Value, thresholm_make_scalar_only: [shape 0] [in a] [lent out] [to shape]).moving(),
    call!(POWI, &[Dims, Flavor, Power], Lends::Value, thresholm_powi: [shape 0] [power 5] [in a] [lent out] [to shape]),
    call!(SQUARED_MAGNITUDE, ONE_SHAPE, Lends::Number, thresholm_squared_magnitude: [shape 0] [in a] [to values 0]),
    call!(TAKE_SCALAR, ONE_SHAPE, Lends::Taken, thresholm_take_scalar: [shape 0] [in a] [lent out] [to shape] [to values 0]).moving(),
    call!(SCALAR_TEST, ONE_SHAPE, Lends::Test,
        thresholm_scalar_test: [shape 0] [in a] [to bytes 0] [to values 0] [to values 1]).moving(),
    call!(EQ, TWO_SHAPES, Lends::Yes, thresholm_eq: [shape 0] [shape 1] [in a] [in b] [to bytes 0]),
    call!(CMP, TWO_SHAPES, Lends::Order, thresholm_cmp: [shape 0] [shape 1] [in a] [in b] [to order 0]),
    call!(READ, NONE, Lends::Sheet, thresholm_read: [in bytes] [lent shapes] [lent patterns] [to counts 0] [to counts 1]),
    call!(WRITE, NONE, Lends::Text, thresholm_write: [in bytes] [in patterns] [lent text] [to counts 0]),
    call!(VALUE_AT, &[Word("index")], Lends::Place, thresholm_value_at: [in bytes] [size 0] [to shape] [to counts 0]),
    call!(NUMBERS_OF, NONE, Lends::List, thresholm_numbers_of: [in patterns] [lent out] [to counts 0]),
    call!(PATTERNS_OF, NONE, Lends::Patterns, thresholm_patterns_of: [in a] [lent patterns] [to counts 0]),
    call!(REPLAY, &[Word("form")], Lends::Pose,
        thresholm_replay: [byte 0] [in bytes] [in log] [lent out] [to shape] [to counts 0] [to right]),
];

/// How many calls there are.
pub const MANY: usize = CALLS.len();

/// The place of each call, by its number.
const ROWS: [Option<usize>; REPLAY as usize + 1] = {
    let mut rows = [None; REPLAY as usize + 1];
    let mut i = 0;
    while i < MANY {
        rows[CALLS[i].number as usize] = Some(i);
        i += 1;
    }
    rows
};

/// Their numbers.
pub fn numbers() -> impl Iterator<Item = u64> {
    CALLS.iter().map(|known| known.number)
}

/// The place of a call among all.
pub fn row(op: u64) -> usize {
    ROWS[op as usize].expect("an exported call")
}

/// The call is one of the exports: some that the lines have are not.
pub fn is_exported(op: u64) -> bool {
    ROWS[op as usize].is_some()
}

pub fn known(op: u64) -> &'static Known {
    &CALLS[row(op)]
}

/// The call only moves numbers or turns their signs.
pub fn moves(op: u64) -> bool {
    known(op).moves
}

/// How many shapes and flavors the call takes, five words each, in front of other words.
pub fn shapes(op: u64) -> usize {
    known(op).parts.iter().filter(|part| **part == Flavor).count()
}

/// Each part of a call's words with the place at which it starts and how many words it has.
pub fn placed(op: u64, words: usize) -> Vec<(Part, usize, usize)> {
    let mut at = 0;
    let mut list = vec![];
    for part in known(op).parts {
        let n = match part {
            Flavor => 4,
            Text => words,
            _ => 1,
        };
        list.push((*part, at, n));
        at += n;
    }
    list
}
