//! The calls of the crate `masks` on flavors, which have no dimensions.
use crate::measure::{INPUTS, Timed};
use crate::sys;
use crate::table::Row;
use crate::values::{Lent, Shape, cell, shape};
use uiua_parser::Flavor::{self, Cl, Projective, Vanilla};

/// Flavors of every kind in rotation, each as both sides have it.
pub fn every() -> (Vec<Flavor>, Vec<Shape>) {
    let flavors = (0..INPUTS).map(|i| [Vanilla, Projective, Cl(3, 1, 1), Cl(2, 2, 0)][i * 7 / 4 % 4]);
    flavors.map(|f| (f, shape(0, f))).unzip()
}

fn metric() -> Timed {
    let (flavors, given) = every();
    let ours = |i: usize, to: &mut Lent| {
        to.order = unsafe { sys::thresholm_metric(given[i].as_ptr(), i as u8 % 9) };
        0
    };
    cell(0, |i| flavors[i].metric(i as u8 % 9), ours, |m, to| *m == to.order as i32)
}

fn added_dims() -> Timed {
    let (flavors, given) = every();
    let ours = |i: usize, to: &mut Lent| {
        to.test = unsafe { sys::thresholm_added_dims(given[i].as_ptr()) };
        0
    };
    cell(0, |i| flavors[i].dim_adjustment(), ours, |n, to| *n == to.test)
}

fn try_from_str(text: &'static str) -> Timed {
    let texts = [text; INPUTS];
    let ours = |i: usize, to: &mut Lent| unsafe {
        sys::thresholm_try_from_str(texts[i].as_ptr(), texts[i].len(), to.shape.as_mut_ptr())
    };
    let agree = |f: &Flavor, to: &Lent| to.shape == shape(0, *f);
    cell(0, |i| Flavor::try_from_str(texts[i]).unwrap().unwrap(), ours, agree)
}

fn write_to(flavor: Flavor) -> Timed {
    let (flavors, given) = ([flavor; INPUTS], [shape(0, flavor); INPUTS]);
    let ours = |i: usize, to: &mut Lent| {
        let (out, room) = (to.bytes.as_mut_ptr(), to.bytes.len());
        unsafe { sys::thresholm_write_to(given[i].as_ptr(), out, room, &mut to.count) }
    };
    cell(0, |i| flavors[i].to_string(), ours, |text, to| *text.as_bytes() == to.bytes[..to.count])
}

pub const ROWS: &[Row] = &[
    Row { call: "metric", of: "every kind in rotation", at: |_| metric() },
    Row { call: "added_dims", of: "every kind in rotation", at: |_| added_dims() },
    Row { call: "try_from_str", of: "`PGA`", at: |_| try_from_str("PGA") },
    Row { call: "try_from_str", of: "`Cl 3 1 1`", at: |_| try_from_str("Cl 3 1 1") },
    Row { call: "write_to", of: "Projective", at: |_| write_to(Projective) },
    Row { call: "write_to", of: "Cl(3, 1, 1)", at: |_| write_to(Cl(3, 1, 1)) },
];
