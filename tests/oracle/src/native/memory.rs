//! The memory that is lent to a call, filled before it: so a call is compared by all that it returns and all that it leaves, what it
//! must not touch included.
use super::lends::{Lends, REFERENCES};

/// So many cells stand before and after each lent list, and are filled too.
pub const AROUND: usize = 8;

/// The byte that fills what is lent. No fill is a NaN.
pub const FILLS: [u8; 2] = [0xa5, 0x5a];

/// A fill, eight bytes of it.
pub fn filled(fill: u8) -> u64 {
    u64::from_ne_bytes([fill; 8])
}

/// A number of some width, as its bits.
pub trait Cell: Copy {
    /// The sign, or the highest bit.
    const TOP: u64;
    const IS_NUMBER: bool = false;
    fn of(bits: u64) -> Self;
    fn bits(self) -> u64;
    /// The number is a NaN.
    fn is_nan(self) -> bool {
        false
    }
    fn text(self) -> String;
}

macro_rules! whole {
    ($($t:ty as $u:ty: $text:literal),*) => {$(
        impl Cell for $t {
            const TOP: u64 = 1 << (<$u>::BITS - 1);
            fn of(bits: u64) -> Self {
                bits as $t
            }
            fn bits(self) -> u64 {
                self as $u as u64
            }
            fn text(self) -> String {
                format!($text, self)
            }
        }
    )*};
}
// A pattern is printed in hexadecimal.
whole!(u8 as u8: "{}", i8 as u8: "{}", u16 as u16: "{}", u32 as u32: "{}", u64 as u64: "{:016x}", usize as usize: "{}");

impl Cell for f64 {
    const TOP: u64 = 1 << 63;
    const IS_NUMBER: bool = true;
    fn of(bits: u64) -> Self {
        f64::from_bits(bits)
    }
    fn bits(self) -> u64 {
        self.to_bits()
    }
    fn is_nan(self) -> bool {
        f64::is_nan(self)
    }
    /// With its bits; +0 has none.
    fn text(self) -> String {
        if self.to_bits() == 0 { "0".to_string() } else { format!("{self:?} ({:016x})", self.to_bits()) }
    }
}

/// A list that is lent, with filled cells around it; one that is not lent has no cells.
#[derive(Clone)]
pub struct Lent<T> {
    cells: Vec<T>,
    room: usize,
}

impl<T: Cell> Lent<T> {
    pub fn none() -> Self {
        Lent { cells: vec![], room: 0 }
    }
    pub fn new(room: usize, fill: u8) -> Self {
        Lent { cells: vec![T::of(filled(fill)); room + 2 * AROUND], room }
    }
    pub fn holding(list: impl ExactSizeIterator<Item = T>, fill: u8) -> Self {
        let mut lent = Lent::new(list.len(), fill);
        lent.put(list);
        lent
    }
    /// Writes from the front.
    pub fn put(&mut self, list: impl ExactSizeIterator<Item = T>) {
        assert!(list.len() <= self.room, "more is written than is lent");
        for (cell, x) in self.cells.iter_mut().skip(AROUND).zip(list) {
            *cell = x
        }
    }
    /// The address of the cell at an index. That of one does not make that of another invalid.
    pub fn at(&mut self, i: usize) -> *mut T {
        assert!(!self.cells.is_empty() && i <= self.room, "nothing is lent there");
        self.cells.as_mut_ptr().wrapping_add(AROUND + i)
    }
    /// The address of the list; null for an empty one with the second fill.
    pub fn start(&mut self) -> *mut T {
        let is_second = self.cells.first().is_some_and(|x| x.bits() == T::of(filled(FILLS[1])).bits());
        if self.room == 0 && is_second { std::ptr::null_mut() } else { self.at(0) }
    }
    pub fn count(&self) -> usize {
        self.room
    }
    /// It is just this list, and the cells around it are still filled.
    pub fn holds(&self, list: &Lent<T>) -> bool {
        self.cells.iter().map(|x| x.bits()).eq(list.cells.iter().map(|x| x.bits()))
    }
    /// Every cell has the same bits; or both are NaNs, where the bits of NaNs are not compared.
    pub fn same(&self, other: &Lent<T>, nan_bits: bool) -> bool {
        let same = |(x, y): (&T, &T)| x.bits() == y.bits() || !nan_bits && x.is_nan() && y.is_nan();
        self.cells.len() == other.cells.len() && self.cells.iter().zip(&other.cells).all(same)
    }
}

/// A lent list of any width, cell by cell, those around it included.
pub trait Cells {
    fn len(&self) -> usize;
    fn room(&self) -> usize;
    fn bits(&self, i: usize) -> u64;
    fn set(&mut self, i: usize, bits: u64);
    fn top(&self) -> u64;
    fn is_number(&self) -> bool;
    fn text(&self, i: usize) -> String;
}

impl<T: Cell> Cells for Lent<T> {
    fn len(&self) -> usize {
        self.cells.len()
    }
    fn room(&self) -> usize {
        self.room
    }
    fn bits(&self, i: usize) -> u64 {
        self.cells[i].bits()
    }
    fn set(&mut self, i: usize, bits: u64) {
        self.cells[i] = T::of(bits)
    }
    fn top(&self) -> u64 {
        T::TOP
    }
    fn is_number(&self) -> bool {
        T::IS_NUMBER
    }
    fn text(&self, i: usize) -> String {
        self.cells[i].text()
    }
}

/// What a call returned, what it left in all that was lent, and whether what went in is as it was.
#[derive(Clone)]
pub struct Memory {
    pub returned: i64,
    pub kept: bool,
    /// A NaN is compared by its bits; without, it is the same as any other.
    pub has_nan_bits: bool,
    /// References: a shape's or a flavor's six bytes, yes or no, or a test; the right value's shape; and others.
    pub bytes: Lent<u8>,
    pub bytes_right: Lent<u8>,
    pub counts: Lent<usize>,
    pub pairs: Lent<u32>,
    pub order: Lent<i8>,
    pub values: Lent<f64>,
    /// Outputs.
    pub out: Lent<f64>,
    pub right: Lent<f64>,
    pub masks: Lent<u16>,
    pub places: Lent<u16>,
    pub text: Lent<u8>,
    pub patterns: Lent<u64>,
    pub shapes: Lent<u8>,
}

impl Memory {
    /// Marked, and nothing returned yet.
    pub fn filled(lends: Lends, room: usize, room_right: usize, fill: u8) -> Memory {
        use Lends::*;
        let [bytes, bytes_right, counts, pairs, order, values] = lends.references();
        Memory {
            returned: 0,
            kept: true,
            has_nan_bits: true,
            bytes: lent(bytes, fill),
            bytes_right: lent(bytes_right, fill),
            counts: lent(counts, fill),
            pairs: lent(pairs, fill),
            order: lent(order, fill),
            values: lent(values, fill),
            out: output(matches!(lends, Value | Values | Product | Taken | List | Pose), room, fill),
            right: output(lends == Values, room_right, fill),
            masks: output(lends == Masks, room, fill),
            places: output(lends == Masks, room_right, fill),
            text: output(lends == Text, room, fill),
            patterns: output(matches!(lends, Patterns | Sheet), room, fill),
            shapes: output(lends == Sheet, room_right, fill),
        }
    }
    pub fn same(&self, other: &Memory) -> bool {
        (self.returned, self.kept) == (other.returned, other.kept)
            && self.bytes.same(&other.bytes, true)
            && self.bytes_right.same(&other.bytes_right, true)
            && self.counts.same(&other.counts, true)
            && self.pairs.same(&other.pairs, true)
            && self.order.same(&other.order, true)
            && self.values.same(&other.values, self.has_nan_bits)
            && self.out.same(&other.out, self.has_nan_bits)
            && self.right.same(&other.right, self.has_nan_bits)
            && self.masks.same(&other.masks, true)
            && self.places.same(&other.places, true)
            && self.text.same(&other.text, true)
            && self.patterns.same(&other.patterns, true)
            && self.shapes.same(&other.shapes, true)
    }
    /// The call returns the number of a refusal.
    pub fn is_refused(&self, lends: Lends) -> bool {
        lends.returns_refusal() && self.returned != 0
    }
    /// Every list, the references first; those that are not lent have no cells.
    pub fn lists(&mut self) -> [&mut dyn Cells; LISTS.len()] {
        [
            &mut self.bytes,
            &mut self.bytes_right,
            &mut self.counts,
            &mut self.pairs,
            &mut self.order,
            &mut self.values,
            &mut self.out,
            &mut self.right,
            &mut self.masks,
            &mut self.places,
            &mut self.text,
            &mut self.patterns,
            &mut self.shapes,
        ]
    }
}

/// The names of the lists, the references first. No call has two outputs of one name.
#[rustfmt::skip]
pub const LISTS: [&str; REFERENCES + 7] = [
    "bytes", "bytes_right", "counts", "pairs", "order", "values",
    "out", "out_right", "masks", "places", "out", "out", "shapes",
];

fn lent<T: Cell>(room: usize, fill: u8) -> Lent<T> {
    output(room > 0, room, fill)
}

fn output<T: Cell>(is_lent: bool, room: usize, fill: u8) -> Lent<T> {
    if is_lent { Lent::new(room, fill) } else { Lent::none() }
}
