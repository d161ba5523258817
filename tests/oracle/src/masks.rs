//! The calls of the crate `masks`: the refusals by document 01's sentences, and the Rust's own answers.
use crate::document;
use crate::line::{Answer, Call};
use crate::rules::*;
use uiua::SubSide;
use uiua_parser::multivector::harness as rust;
use uiua_parser::*;

pub const GRADE_SIZE: u64 = 1;
pub const BLADE_COUNT: u64 = 2;
pub const ORDER_OF: u64 = 3;
pub const METRIC: u64 = 4;
pub const TRY_FROM_STR: u64 = 5;
pub const WRITE_TO: u64 = 6;
pub const SET_DIMS: u64 = 7;
pub const SET_FLAVOR: u64 = 8;
pub const CONFORM_TO: u64 = 9;
pub const CONFORM: u64 = 10;
pub const GET_BLADE: u64 = 11;
pub const SET_BLADE: u64 = 12;
pub const GRADE: u64 = 13;
pub const VECTOR: u64 = 14;
pub const N_1_BLADES: u64 = 15;
pub const SCALAR: u64 = 16;
pub const PSEUDOSCALAR: u64 = 17;
pub const BLADES_LEFT: u64 = 18;
pub const BLADES_RIGHT: u64 = 19;
pub const UNPACK_ALL: u64 = 20;
pub const UNPACK_EVEN: u64 = 21;
pub const UNPACK_ODD: u64 = 22;
pub const UNPACK_OWN_EVEN: u64 = 23;
pub const UNPACK_OWN_ODD: u64 = 24;
pub const UNPACK_VECTOR: u64 = 25;

pub const NULL_FLAVOR: u64 = 26;
pub const PROMOTION: u64 = 32;
pub const SHAPE_OF: u64 = 62;

fn list(v: Vec<f64>) -> Answer {
    Answer { words: vec![0, v.len() as u64], out: v, right: vec![] }
}

/// Own or stated dimensions above 9 refuse 1 (audit, d), then the count, then the output.
fn unpacked(c: &Call, d: Option<u64>, side: Option<SubSide>, needed: usize) -> Given<Answer> {
    let (s, own) = (&c.words[..5], c.words[0]);
    dims(own)?;
    dims(d.unwrap_or(own))?;
    count(&c.a, own)?;
    room(c.room, needed)?;
    let m = rust::make(flavor(&s[1..]), &c.a);
    Ok(list(run(|| uiua::unpack(m, d.map(|d| d as u8), side)).expect("unpacks")))
}

/// "2^(d-1) numbers; stated d = 0 gives the scalar; own d = 0 gives one number".
fn half(d: u64) -> usize {
    1 << d.clamp(1, 63) >> 1
}

fn words(words: Vec<u64>) -> Answer {
    Answer { words, ..Answer::default() }
}

/// The value that a call gives.
fn made(c: &Call) -> Multivector {
    rust::make(flavor(&c.words[1..5]), &c.a)
}

/// Grades, masks and the metric. A grade above the dimensions is 0 and no refusal; `metric` is never refused, since an index is no dimension
/// (audit, d).
fn of_masks(c: &Call) -> Given<Answer> {
    let w = &c.words;
    Ok(match c.op {
        GRADE_SIZE => {
            dims(w[0])?;
            words(vec![0, grade_size(w[0] as u8, w[1] as u8) as u64])
        }
        BLADE_COUNT => {
            dims(w[0])?;
            words(vec![0, 1 << w[0]])
        }
        ORDER_OF => {
            dims(w[0])?;
            let (masks, places) = mask_tables(w[0] as u8);
            let held = |t: &[usize]| (0..512).map(|i| t.get(i).map_or(0.0, |x| *x as f64)).collect();
            Answer { words: vec![0, w[0]], out: held(masks), right: held(places) }
        }
        METRIC => words(vec![(flavor(&w[1..]).metric(w[5] as u8) + 1) as u64]),
        _ => return of_flavors(c),
    })
}

/// The flavor that a text says. Where no byte is above 127, the Rust must have none (7), an error (8) or a flavor as document 01 says.
fn read_flavor(w: &[u64]) -> Given<Flavor> {
    let bytes: Vec<u8> = w.iter().map(|b| *b as u8).collect();
    let refused = document::text(&bytes);
    let Some(text) = std::str::from_utf8(&bytes).ok().filter(|text| text.is_ascii()) else {
        return refused.map(|()| unreachable!("a byte above 127 is refused"));
    };
    let read = run(|| Flavor::try_from_str(text)).ok_or(7).and_then(|read| read.map_err(|_| 8));
    assert_eq!(refused, read.map(|_| ()), "the Rust reads just the texts that document 01 does not refuse");
    read
}

/// Flavors, their text, and shapes that are only named.
fn of_flavors(c: &Call) -> Given<Answer> {
    let w = &c.words;
    Ok(match c.op {
        TRY_FROM_STR => words([vec![0], flavor_words(read_flavor(w)?).to_vec()].concat()),
        WRITE_TO => {
            let text = flavor(&w[1..]).to_string();
            room(c.room, text.len())?;
            let out = text.bytes().map(f64::from).chain(std::iter::repeat(7.0)).take(c.room).collect();
            Answer { words: vec![0, text.len() as u64], out, right: vec![] }
        }
        // The dimensions that the Rust adds to a value of none.
        PROMOTION => {
            let mut m = rust::make(flavor(&w[1..]), &[1.0]);
            m.set_flavor(flavor(&w[6..]));
            words(vec![m.dims() as u64])
        }
        SHAPE_OF => words([&[w[0]][..], &flavor_words(flavor(&w[1..]))].concat()),
        NULL_FLAVOR => words(flavor_words(Flavor::NULL).to_vec()),
        _ => return changed(c),
    })
}

/// The value after a change, where its result has n dimensions: 1 for the resulting one, 2, 3.
fn changed_to(c: &Call, n: u64, change: impl FnOnce(&mut Multivector)) -> Given<Answer> {
    dims(n)?;
    count(&c.a, c.words[0])?;
    room(c.room, 1 << n)?;
    let mut m = made(c);
    run(|| change(&mut m));
    Ok(value(m))
}

/// Changes of shapes. Vanilla of 9 to Projective is 1, with a wrong count too; `conform_to` "does this to the left side only", so of the right
/// only the shape is given (audit, b4 and d).
fn changed(c: &Call) -> Given<Answer> {
    let w = &c.words;
    dims(if [SET_DIMS, SET_FLAVOR, CONFORM_TO].contains(&c.op) { w[0] } else { 0 })?;
    match c.op {
        SET_DIMS => changed_to(c, w[5], |m| m.set_dims(w[5] as u8)),
        SET_FLAVOR => {
            let f = flavor(&w[6..]);
            changed_to(c, w[0] + promotes(flavor(&w[1..]), f), |m| m.set_flavor(f))
        }
        CONFORM_TO => {
            let theirs = flavor(&w[6..]);
            let n = (w[0] + promotes(flavor(&w[1..]), theirs)).max(w[5]);
            changed_to(c, n, |m| rust::conform_to(m, &rust::make(theirs, &vec![1.0; 1 << w[5]])))
        }
        CONFORM => {
            let (mut a, mut b, n) = two_values(c)?;
            room(c.room, 1 << n)?;
            room(c.room_right, 1 << n)?;
            run(|| rust::conform(&mut a, &mut b));
            Ok(Answer {
                words: [vec![0], shape_words(&a), shape_words(&b)].concat(),
                out: rust::coefs(&a).to_vec(),
                right: rust::coefs(&b).to_vec(),
            })
        }
        _ => of_blades(c),
    }
}

/// Single blades and single grades. "`get_blade` gives 0 for a mask outside"; "`set_blade` outside grows by one dimension and calls itself", as
/// far as the mask's highest bit; 4: "the part of a value at a grade above its dimensions is asked for".
fn of_blades(c: &Call) -> Given<Answer> {
    let w = &c.words;
    match c.op {
        GET_BLADE => {
            dims(w[0])?;
            count(&c.a, w[0])?;
            Ok(Answer { words: vec![0], out: vec![run(|| made(c).get_blade(w[5] as usize))], right: vec![] })
        }
        SET_BLADE => {
            dims(w[0])?;
            let grown = (64 - w[5].leading_zeros() as u64).max(w[0]);
            changed_to(c, grown, |m| m.set_blade(w[5] as usize, c.b[0]))
        }
        GRADE => {
            dims(w[0])?;
            count(&c.a, w[0])?;
            unless(w[5] > w[0], 4)?;
            Ok(list(run(|| made(c).grades().nth(w[5] as usize).unwrap().to_vec())))
        }
        _ => built(c),
    }
}

/// Values from few numbers. "`vector`: 0 to 9 numbers", and "of 10 refuses 1"; "`n_1_blades`: 2 to 9 numbers ..; fewer .. refuses 2 here";
/// "`scalar` and `pseudoscalar` add a dimension under Projective".
fn built(c: &Call) -> Given<Answer> {
    let w = &c.words;
    match c.op {
        VECTOR => {
            dims(c.a.len() as u64)?;
            room(c.room, 1 << c.a.len())?;
            Ok(value(run(|| Multivector::vector(&c.a[..], flavor(&w[1..])))))
        }
        N_1_BLADES => {
            dims(c.a.len() as u64)?;
            unless(c.a.len() < 2, 2)?;
            room(c.room, 1 << c.a.len())?;
            Ok(value(run(|| Multivector::n_1_blades(&c.a[..], flavor(&w[1..])))))
        }
        SCALAR | PSEUDOSCALAR => {
            let f = flavor(&w[1..]);
            let n = w[0] + (f == Flavor::Projective) as u64;
            dims(n)?;
            room(c.room, 1 << n)?;
            let make = if c.op == SCALAR { Multivector::scalar } else { Multivector::pseudoscalar };
            Ok(value(run(|| make(w[0] as u8, c.b[0], f))))
        }
        BLADES_LEFT | BLADES_RIGHT => {
            dims(w[0])?;
            let make = if c.op == BLADES_LEFT { Multivector::blades_left } else { Multivector::blades_right };
            let made = run(|| make(w[0] as u8, c.a.clone(), flavor(&w[1..])));
            let fits = document::packing(c.a.len(), w[0], c.op == BLADES_LEFT);
            assert_eq!(fits.is_ok(), made.is_ok(), "the Rust packs just the counts that document 01 does not refuse");
            fits?;
            room(c.room, 1 << w[0])?;
            Ok(value(made.expect("a packing fits")))
        }
        _ => some_numbers(c),
    }
}

/// Some numbers of a value: all blades at d, half of them, or the vector at own dimensions.
fn some_numbers(c: &Call) -> Given<Answer> {
    let w = &c.words;
    match c.op {
        UNPACK_ALL => unpacked(c, Some(w[5]), None, 1 << w[5].min(63)),
        UNPACK_EVEN => unpacked(c, Some(w[5]), Some(SubSide::Left), half(w[5])),
        UNPACK_ODD => unpacked(c, Some(w[5]), Some(SubSide::Right), half(w[5])),
        UNPACK_OWN_EVEN => unpacked(c, None, Some(SubSide::Left), half(w[0])),
        UNPACK_OWN_ODD => unpacked(c, None, Some(SubSide::Right), half(w[0])),
        UNPACK_VECTOR => unpacked(c, None, None, w[0] as usize),
        _ => unreachable!("no call has this number"),
    }
}

/// What comes out of a call: the Rust's answer, or a refusal, which "writes no lent number or byte and returns its number, zero for counts and
/// values, .. and shape 0 Vanilla".
pub fn answer(c: &Call) -> Answer {
    of_masks(c).unwrap_or_else(|number| {
        let zeros = match c.op {
            GRADE_SIZE | BLADE_COUNT | ORDER_OF | WRITE_TO | GRADE | UNPACK_ALL..=UNPACK_VECTOR => 1,
            TRY_FROM_STR => 4,
            CONFORM => 10,
            GET_BLADE => 0,
            _ => 5,
        };
        let out = match c.op {
            GET_BLADE => vec![0.0],
            WRITE_TO => vec![7.0; c.room],
            _ => vec![],
        };
        Answer { words: [vec![number], vec![0; zeros]].concat(), out, right: vec![] }
    })
}
