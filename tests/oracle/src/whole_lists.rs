//! Lists of the calls of the crate `masks`: what is small is listed whole.
use crate::line::Call;
use crate::lists::{FLAVORS, bytes};
use crate::masks::*;
use crate::numbers::{Rng, SPECIAL};

/// All texts of at most `length` bytes over an alphabet, after a beginning.
fn texts(begin: &str, alphabet: &[u8], length: usize, each: &mut impl FnMut(Call)) {
    let mut round = vec![bytes(begin)];
    for _ in 0..=length {
        let mut longer = vec![];
        for t in round {
            longer.extend(alphabet.iter().map(|c| [&t[..], &[*c as u64]].concat()));
            each(Call { op: TRY_FROM_STR, words: t, ..Call::default() });
        }
        round = longer;
    }
}

/// From each kind of flavor to each.
pub fn promotions(each: &mut impl FnMut(Call)) {
    let flavors = [[0, 0, 0, 0], [1, 0, 0, 0], [2, 3, 0, 0], [2, 3, 0, 1], [2, 0, 0, 255]];
    for f in flavors {
        for g in flavors {
            each(Call { op: PROMOTION, words: [&[0], &f[..], &[0], &g[..]].concat(), ..Call::default() });
        }
    }
}

/// Some dimensions, with each flavor of the few.
pub fn shapes(some: impl Iterator<Item = u64>, each: &mut impl FnMut(Call)) {
    for dims in some {
        for f in FLAVORS {
            each(Call { op: SHAPE_OF, words: [&[dims][..], &f].concat(), ..Call::default() });
        }
    }
}

/// Everything that is small enough to be listed whole.
pub fn exhaustive(r: &mut Rng, each: &mut impl FnMut(Call)) {
    let few: Vec<u64> = (0..=12).chain([64, 255]).collect();
    for &d in &few {
        for &g in &few {
            each(Call { op: GRADE_SIZE, words: vec![d, g], ..Call::default() });
        }
        each(Call { op: ORDER_OF, words: vec![d], room: 520, room_right: 520, ..Call::default() });
    }
    for d in 0..256 {
        each(Call { op: BLADE_COUNT, words: vec![d], ..Call::default() });
    }
    promotions(each);
    for index in 0..256 {
        each(Call { op: METRIC, words: vec![0, 0, 0, 0, 0, index], ..Call::default() });
        each(Call { op: METRIC, words: vec![0, 1, 0, 0, 0, index], ..Call::default() });
        for (n, z) in [(0, 0), (1, 1), (3, 2), (200, 100), (255, 255), (0, 255), (255, 0), (7, 250)] {
            each(Call { op: METRIC, words: vec![0, 2, 9, n, z, index], ..Call::default() });
        }
    }
    texts("", b" ,Cl3VGAP\n+0", 4, each);
    texts("Cl", b" ,\t\n256+x", 5, each);
    texts("Cl 3 ", b" 1,0x9", 6, each);
    written(each);
    packed(r, each);
    changed(r, each);
    special(each);
}

/// Every flavor's text of some numbers, in outputs of every length about it.
fn written(each: &mut impl FnMut(Call)) {
    let few = [0, 1, 9, 10, 99, 100, 255];
    let mut flavors = vec![FLAVORS[0], FLAVORS[1]];
    for p in few {
        for n in few {
            flavors.extend(few.map(|z| [2, p, n, z]));
        }
    }
    for f in flavors {
        for room in 0..=16 {
            each(Call { op: WRITE_TO, words: [&[0][..], &f].concat(), room, ..Call::default() });
        }
    }
}

/// Every change of dimensions and of flavor, every unpacking, every grade and every mask of few dimensions.
pub fn changed(r: &mut Rng, each: &mut impl FnMut(Call)) {
    for (d, f) in (0..=9u64).flat_map(|d| FLAVORS[..3].iter().map(move |f| (d, f))) {
        let own = [&[d][..], f].concat();
        let value = |r: &mut Rng, op, more: &[u64], room| {
            let words = [&own[..], more].concat();
            Call { op, words, a: r.numbers(1 << d), room, ..Call::default() }
        };
        for n in 0..=9u64 {
            for op in [SET_DIMS, UNPACK_ALL, UNPACK_EVEN, UNPACK_ODD, GRADE] {
                each(value(r, op, &[n], 520));
            }
            for g in &FLAVORS[..3] {
                let more = [&[n][..], g].concat();
                each(value(r, CONFORM_TO, &more, 520));
                let b = r.numbers(1 << n);
                each(Call { b, room_right: 520, ..value(r, CONFORM, &more, 520) });
            }
        }
        for g in &FLAVORS {
            each(value(r, SET_FLAVOR, &[&[0][..], g].concat(), 520));
        }
        for op in [UNPACK_OWN_EVEN, UNPACK_OWN_ODD, UNPACK_VECTOR] {
            each(value(r, op, &[], 520));
        }
        for mask in (0..1u64 << (d + 1).min(6)).chain([256, 511, 512, u64::MAX]) {
            each(value(r, GET_BLADE, &[mask], 1));
            each(Call { b: r.numbers(1), ..value(r, SET_BLADE, &[mask], 512) });
        }
        for op in [SCALAR, PSEUDOSCALAR] {
            each(Call { op, words: own.clone(), b: r.numbers(1), room: 512, ..Call::default() });
        }
    }
}

/// Every packing of every count of numbers, and every vector.
pub fn packed(r: &mut Rng, each: &mut impl FnMut(Call)) {
    for (op, d) in [BLADES_LEFT, BLADES_RIGHT].into_iter().flat_map(|op| (0..=9u64).map(move |d| (op, d))) {
        for n in 0..=(1usize << d) + 2 {
            for f in &FLAVORS[..3] {
                let words = [&[d][..], f].concat();
                each(Call { op, words, a: r.numbers(n), room: (1 << d) + 2, ..Call::default() });
            }
        }
    }
    for (op, n) in [VECTOR, N_1_BLADES].into_iter().flat_map(|op| (0..=11).map(move |n| (op, n))) {
        for f in &FLAVORS {
            each(Call { op, words: [&[0][..], f].concat(), a: r.numbers(n), room: 513, ..Call::default() });
        }
    }
}

/// Every special value, at d = 0 and in each place of d = 3, through each call that moves numbers.
fn special(each: &mut impl FnMut(Call)) {
    for x in SPECIAL {
        for (op, more) in
            [(SET_DIMS, vec![4]), (SET_DIMS, vec![2]), (SET_FLAVOR, vec![0, 1, 0, 0, 0]), (UNPACK_ALL, vec![4])]
        {
            for place in 0..8 {
                let mut a = vec![1.5; 8];
                a[place] = x;
                each(Call { op, words: [vec![3, 0, 0, 0, 0], more.clone()].concat(), a, room: 17, ..Call::default() });
            }
        }
        for op in [SCALAR, PSEUDOSCALAR] {
            each(Call { op, words: vec![0, 0, 0, 0, 0], b: vec![x], room: 2, ..Call::default() });
        }
        each(Call {
            op: SET_BLADE,
            words: vec![2, 0, 0, 0, 0, 16],
            a: vec![x; 4],
            b: vec![x],
            room: 32,
            ..Call::default()
        });
    }
}
