//! Single steps that may make a call smaller.
use super::known::{Part, placed};
use super::plain::Plain;
use crate::replay::REPLAY;
use crate::sheet_reader::{self as ours, Shape, Sheet};
use crate::sheets::{READ, VALUE_AT, WRITE, shape_words};
use std::ops::Range;

/// One step. It is made from one call and tried on those that came of it, so it may not fit any more.
pub enum Move {
    /// A basis vector is left out, with every coefficient that has it, of the values in some of the lists.
    Vector(usize, &'static [usize]),
    /// Part of a list is filled with one number, or left out.
    Fill(usize, Range<usize>, u64),
    Drop(usize, Range<usize>),
    /// A number has so many digits fewer, or the exponent 0.
    Round(usize, usize, u32),
    Unscaled(usize, usize),
    /// Some words are others, or are left out.
    Words(usize, Vec<u64>),
    DropWord(usize),
    /// Every flavor is this one.
    Flavors([u64; 4]),
    Mark(usize, u8),
    Room(usize, usize),
    /// A sheet has no more a shape, or one of its shapes a dimension less, with the coefficients: the first half is left, or the other.
    DropShape(usize),
    LowerShape(usize, usize),
    /// A sheet's shape is Vanilla, or one of its patterns another.
    PlainShape(usize),
    Pattern(usize, u64),
}

/// The masks in the order of the Rust.
fn masks(d: u64) -> &'static [usize] {
    uiua_parser::mask_tables(d as u8).0
}

/// The value in a list without basis vector i.
fn without_vector(c: &mut Plain, list: usize, i: usize) -> Option<()> {
    let d = c.dims(list).filter(|d| (i as u64) < *d)?;
    let kept = masks(d).iter().zip(&c.lists[list]).filter(|(mask, _)| *mask >> i & 1 == 0);
    c.lists[list] = kept.map(|(_, x)| *x).collect();
    c.words[5 * list] = d - 1;
    Some(())
}

/// The sheet that a call reads or writes, with the marks of the shapes that are written.
struct Marked {
    shapes: Vec<Shape>,
    marks: Vec<u64>,
    patterns: Vec<u64>,
}

impl Marked {
    fn of(c: &Plain) -> Option<Marked> {
        let [first, second] = &c.lists;
        match c.op {
            READ | REPLAY => {
                let sheet = ours::read(&first.iter().map(|w| *w as u8).collect::<Vec<u8>>()).ok()?;
                Some(Marked { marks: vec![0; sheet.shapes.len()], shapes: sheet.shapes, patterns: sheet.patterns })
            }
            WRITE if first.len().is_multiple_of(6) => {
                let shape = |s: &[u64]| {
                    let [dims, kind, p, n, z] = [0, 1, 2, 3, 4].map(|i| s[i] as u8);
                    Shape { dims, kind, p, n, z }
                };
                let shapes: Vec<Shape> = first.chunks(6).map(shape).collect();
                let marks = first.chunks(6).map(|s| s[5]).collect();
                let is_sheet = ours::coefficients(&shapes) == Some(second.len() as u64);
                is_sheet.then(|| Marked { shapes, marks, patterns: second.clone() })
            }
            _ => None,
        }
    }
    /// The lists of a call that reads, replays or writes it; a log stays as it is.
    fn lists(self, op: u64, log: Vec<u64>) -> [Vec<u64>; 2] {
        if [READ, REPLAY].contains(&op) {
            let bytes = ours::write(&Sheet { shapes: self.shapes, patterns: self.patterns });
            return [bytes.into_iter().map(u64::from).collect(), log];
        }
        let six = |(s, mark): (&Shape, u64)| shape_words(s).into_iter().chain([mark]);
        [self.shapes.iter().zip(self.marks).flat_map(six).collect(), self.patterns]
    }
    /// The coefficients of the shape at an index.
    fn coefficients(&self, i: usize) -> Option<Range<usize>> {
        let from = ours::coefficients(self.shapes.get(..i)?)? as usize;
        Some(from..from + (1usize << self.shapes.get(i)?.dims))
    }
    fn drop_shape(&mut self, i: usize) -> Option<()> {
        let at = self.coefficients(i)?;
        self.patterns.drain(at);
        self.shapes.remove(i);
        self.marks.remove(i);
        Some(())
    }
    fn lower_shape(&mut self, i: usize, half: usize) -> Option<()> {
        let at = self.coefficients(i)?;
        self.shapes[i].dims = self.shapes[i].dims.checked_sub(1)?;
        let (n, from) = (at.len() / 2, at.start + (1 - half) * at.len() / 2);
        self.patterns.drain(from..from + n);
        Some(())
    }
    fn plain_shape(&mut self, i: usize) -> Option<()> {
        let shape = self.shapes.get_mut(i)?;
        *shape = Shape { dims: shape.dims, ..Shape::default() };
        Some(())
    }
}

fn with_sheet(c: &mut Plain, change: impl FnOnce(&mut Marked) -> Option<()>) -> Option<()> {
    let mut s = Marked::of(c)?;
    change(&mut s)?;
    c.lists = s.lists(c.op, std::mem::take(&mut c.lists[1]));
    Some(())
}

/// The values after one that is left out have a lower index in a log; what named it names the one before.
fn renumber(c: &mut Plain, i: usize) {
    if c.op == REPLAY {
        let named = c.lists[1].chunks_mut(2).filter(|step| step.len() == 2 && [0, 1, 4].contains(&step[0]));
        named.for_each(|step| step[1] -= (step[1] > 0 && step[1] >= i as u64) as u64);
    }
}

impl Move {
    /// The call after this step, where the step fits it.
    pub fn applied(&self, before: &Plain) -> Option<Plain> {
        let mut c = before.clone();
        match self {
            Move::Vector(i, lists) => lists.iter().try_for_each(|list| without_vector(&mut c, *list, *i))?,
            Move::Fill(list, at, x) => c.lists[*list].get_mut(at.clone())?.fill(*x),
            Move::Drop(list, at) => {
                drop(c.lists[*list].get(at.clone()).is_some().then(|| c.lists[*list].drain(at.clone()))?)
            }
            Move::Round(list, i, digits) => *c.lists[*list].get_mut(*i)? &= u64::MAX << digits,
            Move::Unscaled(list, i) => {
                let x = c.lists[*list].get_mut(*i)?;
                *x = *x & !(2047 << 52) | 1023 << 52
            }
            Move::Words(at, words) => c.words.get_mut(*at..at + words.len())?.copy_from_slice(words),
            Move::DropWord(at) => drop((*at < c.words.len()).then(|| c.words.remove(*at))?),
            Move::Flavors(flavor) => {
                let parts = placed(c.op, c.words.len()).into_iter().filter(|(part, ..)| *part == Part::Flavor);
                parts.for_each(|(_, at, n)| c.words[at..at + n].copy_from_slice(flavor))
            }
            Move::Mark(which, mark) => c.marks[*which] = *mark,
            Move::Room(which, room) => c.rooms[*which] = *room,
            Move::DropShape(i) => {
                with_sheet(&mut c, |s| s.drop_shape(*i))?;
                renumber(&mut c, *i)
            }
            Move::LowerShape(i, half) => with_sheet(&mut c, |s| s.lower_shape(*i, *half))?,
            Move::PlainShape(i) => with_sheet(&mut c, |s| s.plain_shape(*i))?,
            Move::Pattern(i, x) => with_sheet(&mut c, |s| s.patterns.get_mut(*i).map(|pattern| *pattern = *x))?,
        }
        Some(c)
    }
}

/// The steps to try on a call, the large ones first.
pub fn moves(c: &Plain) -> Vec<Move> {
    let mut all = vec![];
    for i in (0..9).rev() {
        all.extend([&[0, 1][..], &[0], &[1]].map(|lists| Move::Vector(i, lists)));
    }
    if let Some(s) = Marked::of(c) {
        sheet_moves(&s, &mut all);
    }
    if c.op == REPLAY {
        step_moves(c.lists[1].len() / 2, &mut all);
    }
    if [WRITE, VALUE_AT].contains(&c.op) {
        all.extend((0..c.lists[0].len() / 6).rev().map(|i| Move::Drop(0, 6 * i..6 * i + 6)));
    }
    for list in 0..2 {
        list_moves(c, list, &mut all);
    }
    word_moves(c, &mut all);
    for (which, mark) in c.marks.iter().enumerate() {
        all.extend([0, 1, mark / 2, mark.saturating_sub(1)].map(|mark| Move::Mark(which, mark)));
    }
    for (which, room) in c.rooms.iter().enumerate() {
        let less = (0..10).map(|d| 1 << d).chain([0, room / 2, room.saturating_sub(1)]);
        all.extend(less.map(|room| Move::Room(which, room)));
    }
    all
}

fn sheet_moves(s: &Marked, all: &mut Vec<Move>) {
    let shapes = (0..s.shapes.len()).rev();
    all.extend(shapes.clone().map(Move::DropShape));
    all.extend(
        shapes.clone().flat_map(|i| (0..2 * s.shapes[i].dims as usize).map(move |k| Move::LowerShape(i, k % 2))),
    );
    all.extend(shapes.map(Move::PlainShape));
    let plain = |x: u64| [0, 1f64.to_bits(), x & x.wrapping_sub(1), x & u64::MAX << 48];
    all.extend((0..s.patterns.len()).flat_map(|i| plain(s.patterns[i]).map(|x| Move::Pattern(i, x))));
}

/// Ever smaller parts of a log are left out.
fn step_moves(n: usize, all: &mut Vec<Move>) {
    let mut part = n;
    while part > 0 {
        all.extend((0..n).step_by(part).rev().map(|from| Move::Drop(1, 2 * from..2 * n.min(from + part))));
        part /= 2;
    }
}

/// Ever smaller parts are left out or set to 0; then each is tried as a plain number, and with fewer digits.
fn list_moves(c: &Plain, list: usize, all: &mut Vec<Move>) {
    let n = c.lists[list].len();
    let mut part = n;
    while part > 0 {
        let parts = || (0..n).step_by(part).map(|from| from..n.min(from + part));
        if c.dims(list).is_none() && !c.is_one_number(list) {
            all.extend(parts().rev().map(|at| Move::Drop(list, at)));
        }
        all.extend(parts().map(|at| Move::Fill(list, at, 0)));
        part /= 2;
    }
    let plain = if c.has_numbers() { [1.0, -1.0, 2.0, f64::NAN].map(f64::to_bits) } else { [1, 2, 3, 4] };
    for i in 0..n {
        all.extend(plain.map(|x| Move::Fill(list, i..i + 1, x)));
        if c.has_numbers() {
            all.extend([52, 51, 50, 48, 44, 40, 26, 13, 4, 1].map(|digits| Move::Round(list, i, digits)));
            all.push(Move::Unscaled(list, i));
        } else {
            let x = c.lists[list][i];
            all.extend([x >> 1, x.saturating_sub(1), x & x.wrapping_sub(1)].map(|x| Move::Fill(list, i..i + 1, x)));
        }
    }
}

fn word_moves(c: &Plain, all: &mut Vec<Move>) {
    all.extend([[0, 0, 0, 0], [1, 0, 0, 0], [2, 0, 0, 0]].map(Move::Flavors));
    for (part, at, n) in placed(c.op, c.words.len()) {
        let w = c.words.get(at).copied().unwrap_or(0);
        match part {
            Part::Flavor => flavor_moves(at, &c.words[at..at + n], all),
            Part::Power => {
                let (half, less) = (w as u32 as i32 / 2, (w as u32 as i32).saturating_sub(1));
                let powers = [0, 1, 2, 3, -1, -2, -3, half, half + 1, less, less.saturating_sub(1)];
                all.extend(powers.map(|p| Move::Words(at, vec![p as u32 as u64])))
            }
            Part::Text => {
                all.extend((at..at + n).rev().map(Move::DropWord));
                all.extend((at..at + n).flat_map(|i| b" 01".map(|b| Move::Words(i, vec![b.into()]))));
            }
            _ => all.extend([0, 1, w / 2, w.saturating_sub(1)].map(|w| Move::Words(at, vec![w]))),
        }
    }
}

fn flavor_moves(at: usize, f: &[u64], all: &mut Vec<Move>) {
    all.extend([[0, 0, 0, 0], [1, 0, 0, 0], [2, 0, 0, 0], [2, f[1], f[2], f[3]]].map(|f| Move::Words(at, f.to_vec())));
    for (i, w) in f.iter().enumerate().skip(1) {
        all.extend([0, 1, w / 2, w.saturating_sub(1)].map(|w| Move::Words(at + i, vec![w])));
    }
}
