//! A call in one form for all, to be made smaller, and how large it is.
use super::asked::Asked;
use super::known::{Part, placed};
use crate::arithmetic::{DIV_F64, MUL_F64};
use crate::line::{Call, SheetCall};
use crate::masks::{PSEUDOSCALAR, SCALAR, SET_BLADE};
use crate::sheets::PATTERNS_OF;

/// The lists are bits: of numbers, patterns or bytes.
#[derive(Clone)]
pub struct Plain {
    pub op: u64,
    pub words: Vec<u64>,
    pub lists: [Vec<u64>; 2],
    pub rooms: [usize; 2],
    pub marks: [u8; 2],
    is_sheet: bool,
}

fn bits(list: &[f64]) -> Vec<u64> {
    list.iter().map(|x| x.to_bits()).collect()
}

fn numbers(list: &[u64]) -> Vec<f64> {
    list.iter().map(|x| f64::from_bits(*x)).collect()
}

impl Plain {
    pub fn of(asked: &Asked) -> Plain {
        match asked.clone() {
            Asked::Values(c) => Plain {
                op: c.op,
                words: c.words,
                lists: [bits(&c.a), bits(&c.b)],
                rooms: [c.room, c.room_right],
                marks: c.marks,
                is_sheet: false,
            },
            Asked::Sheet(c) => Plain {
                op: c.op,
                words: c.words,
                lists: [c.first, c.second],
                rooms: [c.room, c.room_shapes],
                marks: [0, 0],
                is_sheet: true,
            },
        }
    }
    pub fn asked(&self) -> Asked {
        let Plain { op, words, lists: [first, second], rooms: [room, other], marks, is_sheet } = self.clone();
        if is_sheet {
            Asked::Sheet(SheetCall { op, words, first, second, room, room_shapes: other })
        } else {
            Asked::Values(Call { op, words, a: numbers(&first), b: numbers(&second), room, room_right: other, marks })
        }
    }
    pub fn has_numbers(&self) -> bool {
        !self.is_sheet || self.op == PATTERNS_OF
    }
    /// The list is the one number that the call takes.
    pub fn is_one_number(&self, list: usize) -> bool {
        list == 1 && [SET_BLADE, SCALAR, PSEUDOSCALAR, MUL_F64, DIV_F64].contains(&self.op)
    }
    /// The dimensions of the value in a list: the word before its flavor, where as many numbers as it has stand in the list.
    pub fn dims(&self, list: usize) -> Option<u64> {
        let d = *self.words.get(5 * list)?;
        let is_value = placed(self.op, self.words.len()).contains(&(Part::Dims, 5 * list, 1));
        (is_value && !self.is_sheet && d <= 9 && self.lists[list].len() == 1 << d).then_some(d)
    }
    /// What is not 0 weighs, the less the plainer it is; so does every number that is there, and every place that is lent.
    pub fn size(&self) -> u64 {
        let weigh = if self.has_numbers() { number_weight } else { word_weight };
        let lists: u64 = self.lists.iter().flatten().map(|x| 100 + weigh(*x)).sum();
        let rooms = self.rooms.iter().sum::<usize>() as u64;
        let marks: u64 = self.marks.iter().map(|mark| word_weight((*mark).into())).sum();
        lists + rooms + marks + self.words_size()
    }
    fn words_size(&self) -> u64 {
        let part = |(part, at, n): (Part, usize, usize)| {
            let words = &self.words[at..at + n];
            match part {
                Part::Flavor => flavor_weight(words),
                Part::Power => 2 * word_weight((words[0] as u32 as i32).unsigned_abs().into()) + (words[0] >> 31),
                Part::Text => words.iter().map(|b| 100 + word_weight(*b)).sum(),
                _ => words.iter().map(|w| word_weight(*w)).sum(),
            }
        };
        placed(self.op, self.words.len()).into_iter().map(part).sum()
    }
}

/// A small number is its weight, a large one has that of its binary digits.
fn word_weight(w: u64) -> u64 {
    if w < 64 { w } else { 58 + u64::from(64 - w.leading_zeros()) }
}

fn flavor_weight(f: &[u64]) -> u64 {
    let kind = match f[0] {
        0 => 0,
        1 => 8,
        2 => 12,
        more => 12 + word_weight(more),
    };
    kind + f[1..].iter().map(|w| word_weight(*w)).sum::<u64>()
}

/// 0, 1, -1, 2 and -0 weigh least, then infinities and NaN, then numbers of few digits and an exponent near 0.
fn number_weight(bits: u64) -> u64 {
    let x = f64::from_bits(bits);
    let plain = [0.0, 1.0, -1.0, 2.0, -0.0, f64::INFINITY, f64::NEG_INFINITY].map(f64::to_bits);
    if let Some(place) = plain.iter().position(|p| *p == bits) {
        return place as u64;
    }
    if x.is_nan() {
        return 7 + (bits != f64::NAN.to_bits()) as u64;
    }
    let (digits, exponent) = (bits & ((1 << 52) - 1), (bits >> 52 & 2047).abs_diff(1023));
    let many = 52 - u64::from(digits.trailing_zeros()).min(52);
    9 + many + word_weight(exponent) + (bits >> 63)
}
