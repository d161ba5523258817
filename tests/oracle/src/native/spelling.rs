//! Shapes that go in, spelled in other ways than calls report them.
use super::asked::Asked;
use super::known::{Part, placed};
use crate::numbers::Rng;
use crate::sheets::{VALUE_AT, WRITE};

/// A flavor spelled in another way: any kind above 1 is Cl, and p, n, z play no part unless it is.
fn spell(r: &mut Rng, flavor: &mut [u64]) {
    if flavor[0] > 1 {
        flavor[0] = r.pick(&[2, 2, 3, 4, 128, 254, 255]);
    } else {
        flavor[1..4].fill_with(|| r.below(256) as u64);
    }
}

/// A mark that goes in: it is not looked at.
fn mark(r: &mut Rng) -> u8 {
    if r.below(4) == 0 { r.pick(&[1, 2, 255]) } else { r.next() as u8 }
}

/// The call with its shapes spelled in another way, or as it is: flavors as above, any mark, and any dimensions beside a flavor. A sheet that is
/// read has one spelling alone.
pub fn spelled(r: &mut Rng, mut asked: Asked) -> Asked {
    if r.below(2) == 0 {
        return asked;
    }
    match &mut asked {
        Asked::Values(c) => {
            c.marks = [mark(r), mark(r)];
            for (part, at, n) in placed(c.op, c.words.len()) {
                match part {
                    Part::Flavor => spell(r, &mut c.words[at..at + n]),
                    Part::Beside => c.words[at] = r.below(256) as u64,
                    _ => {}
                }
            }
        }
        Asked::Sheet(c) if [WRITE, VALUE_AT].contains(&c.op) => c.first.chunks_exact_mut(6).for_each(|s| {
            spell(r, &mut s[1..5]);
            s[5] = mark(r).into()
        }),
        Asked::Sheet(_) => {}
    }
    asked
}
