//! Files: good sheets, texts and logs, mutated ones, and bytes as they come.
use crate::support::{Rng, sheet};
use std::fs;
use std::path::Path;
use thresholm::{Shape, Sheet};

/// What the files of a round hold.
pub struct Inputs {
    rig: Vec<u8>,
    other: Vec<u8>,
    log: Vec<u8>,
    names: Option<Vec<u8>>,
}

/// Texts that are good, or nearly.
const TEXTS: [&str; 6] = [
    "mic: 3 PGA\n  e12 = 1   e20 = 1200   e01 = 3500\nslide: 3 PGA\n 1 = 1  e01 = -600\nturn: 3 PGA\n 0.9 0 0 0 0 0 -0.1 0\n",
    "mic: 2 VGA\n 0.75 0 0 -0.5 # half\nslide: 0 VGA\n 2\nmic: 1 Cl 0 1 1\n nan -inf\n",
    ": 4 PGA\n 1 = 1e200\nturn: 4 PGA\n e02 = 1e200  e0123 = 5e-324\nslide: 9 dimensions, flavor VGA\n e1 = 1\n",
    "a: 3 VGA\n e31 = 2 1 = 1\nmic: 3 PGA\n 1 = 0x7FF8000000000001\n",
    "# nothing\n",
    "e12: 1\nmic #2: 3 PGA\n 1,5",
];

const LOGS: [&str; 5] = [
    "left slide\nright turn\nreverse\nleft 1\nleft 2\nhalt mic\n",
    "left 1\nleft 1\nleft 1\nright 2\ndims 4\nreverse\ndims 9\nleft 1\n",
    "dims 10\nright 0",
    "right 1\nright 1 # again\nright 1\nhalt 0\n\nleft 0",
    "",
];

/// Pieces that texts are made of, and some that they are not.
const PIECES: [&str; 30] = [
    "a", ":", "\n", "\n", " ", " ", "=", "#", "0", "1", "3", "9", "10", "VGA", "PGA", "Cl 3 0 1", "e1", "e12", "-",
    ".", ",", "1e999", "0x", "nan", "inf", "é", "\r", "\0", "left ", "halt ",
];

impl Inputs {
    pub fn drawn(r: &mut Rng) -> Inputs {
        let rig = rig(r);
        let mut other = if r.below(3) == 0 { self::rig(r) } else { rig.clone() };
        if r.below(2) == 0 {
            mutate(r, &mut other);
        }
        let names = (r.below(6) == 0).then(|| pieces(r));
        Inputs { rig, other, log: log(r), names }
    }

    /// Puts the files into a folder; links and empty files are among them.
    pub fn put(&self, folder: &Path, r: &mut Rng) {
        let write = |name: &str, bytes: &[u8]| fs::write(folder.join(name), bytes).expect("a file");
        write("rig", &self.rig);
        write("rig2", &self.other);
        write("log", &self.log);
        let _ = fs::remove_file(folder.join("rig.names"));
        if let Some(names) = &self.names {
            write("rig.names", names);
        }
        if r.below(40) == 0 {
            write(r.pick(&["rig", "rig2", "log"]), b"");
        }
    }
}

fn rig(r: &mut Rng) -> Vec<u8> {
    let mut bytes = match r.below(6) {
        0 | 1 => any_sheet(r),
        2 => {
            let rig: thresholm::rig::Rig = r.pick(&TEXTS[..4]).parse().expect("a rig");
            Sheet::to_bytes(rig.sheet()).expect("its bytes")
        }
        3 | 4 => r.pick(&TEXTS).as_bytes().to_vec(),
        _ => pieces(r),
    };
    if r.below(3) == 0 {
        mutate(r, &mut bytes);
    }
    bytes
}

/// A good sheet of any shapes, whose numbers are small, special, or any bits.
fn any_sheet(r: &mut Rng) -> Vec<u8> {
    let most = if r.below(20) == 0 { 10 } else { 5 };
    let shapes: Vec<Shape> = (0..1 + r.below(4)).map(|_| Shape::new(r.below(most) as u8, r.flavor())).collect();
    let count = shapes.iter().map(|shape| shape.blade_count().expect("few dimensions")).sum();
    let kind = r.below(3);
    let number = |r: &mut Rng| match kind {
        0 => (r.below(64) as f64 / 8.0 - 4.0).to_bits(),
        1 => r.pick(&[0.0, -0.0, 0.1, 1.0, -1.0, 1e200, -1e-200, f64::NAN, f64::INFINITY]).to_bits(),
        _ => r.next(),
    };
    let patterns: Vec<u64> = (0..count).map(|_| number(r)).collect();
    sheet(&shapes, &patterns)
}

fn log(r: &mut Rng) -> Vec<u8> {
    let mut log = match r.below(4) {
        0 => (0..2 * r.below(40)).map(|at| if at % 2 == 0 { r.below(5) as u8 } else { r.below(3) as u8 }).collect(),
        1 | 2 => r.pick(&LOGS).as_bytes().to_vec(),
        _ => pieces(r),
    };
    if r.below(4) == 0 {
        mutate(r, &mut log);
    }
    log
}

fn pieces(r: &mut Rng) -> Vec<u8> {
    (0..r.below(30)).flat_map(|_| r.pick(&PIECES).bytes()).collect()
}

/// Bytes changed, taken out, put in, cut off, or written twice.
fn mutate(r: &mut Rng, bytes: &mut Vec<u8>) {
    for _ in 0..1 + r.below(3) {
        let at = r.below(bytes.len() + 1);
        match r.below(6) {
            0 => bytes.truncate(at),
            1 => bytes.insert(at, r.next() as u8),
            2 if at < bytes.len() => drop(bytes.remove(at)),
            3 => bytes.splice(at..at, r.pick(&PIECES).bytes()).for_each(drop),
            4 if at < bytes.len() => bytes[at] ^= 1 << r.below(8),
            5 if at < bytes.len() => bytes[at] = r.next() as u8,
            _ => bytes.extend_from_within(at..),
        }
    }
}
