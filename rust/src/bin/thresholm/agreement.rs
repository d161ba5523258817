//! The diagnosis agrees with the library's reader: it finds something wrong exactly where the reader refuses.
use crate::diagnosis::{MOST_BYTES, first_wrong};
use thresholm::{Error, Flavor, Shape, Sheet};

fn agrees(bytes: &[u8]) {
    match (Sheet::from_bytes(bytes), first_wrong(bytes)) {
        (Ok(_), None) => {}
        (Err(error), Some(wrong)) => {
            assert_eq!(error, Error::Malformed, "{bytes:?}");
            assert!(wrong.at <= bytes.len(), "{wrong:?}");
        }
        (read, wrong) => panic!("{bytes:?}: the reader says {read:?}, the diagnosis {wrong:?}"),
    }
}

fn sheet(shapes: &[Shape]) -> Vec<u8> {
    let count: usize = shapes.iter().map(|shape| 1usize << shape.dims()).sum();
    let patterns: Vec<u64> = (0..count as u64).map(|place| place.wrapping_mul(0x9E37_79B9_7F4A_7C15)).collect();
    Sheet::new(shapes, patterns).and_then(|sheet| sheet.to_bytes()).expect("a good sheet")
}

fn sheets() -> Vec<Vec<u8>> {
    let shape = Shape::new;
    vec![
        sheet(&[]),
        sheet(&[shape(0, Flavor::Vanilla)]),
        sheet(&[shape(2, Flavor::Projective), shape(1, Flavor::Cl(3, 0, 1)), shape(0, Flavor::NULL)]),
        sheet(&[shape(3, Flavor::Cl(0, 255, 0)), shape(3, Flavor::Vanilla)]),
    ]
}

#[test]
fn on_every_changed_byte() {
    for good in sheets() {
        agrees(&good);
        for at in 0..good.len() {
            for byte in 0..=255 {
                let mut bytes = good.clone();
                bytes[at] = byte;
                agrees(&bytes);
            }
        }
    }
}

#[test]
fn on_every_end() {
    for good in sheets() {
        for end in 0..good.len() {
            agrees(&good[..end]);
        }
        for extra in 1..20 {
            agrees(&[&good[..], &vec![0; extra]].concat());
        }
    }
}

#[test]
fn at_the_limits() {
    let large = [Shape::new(9, Flavor::Vanilla); 8];
    let many = [Shape::new(6, Flavor::Projective); 64];
    for good in [sheet(&large), sheet(&many), sheet(&[Shape::default(); 64])] {
        assert!(good.len() <= MOST_BYTES);
        agrees(&good);
        for end in [good.len() - 1, good.len() - 8, 5, 330, 41, 45] {
            agrees(&good[..end]);
        }
        for (at, byte) in [(0, 65), (0, 9), (1, 1), (2, 8), (2, 7), (42, 1), (44, 255), (322, 1), (323, 17), (325, 1)] {
            let mut bytes = good.clone();
            bytes[at] = byte;
            agrees(&bytes);
            bytes.extend([0; 64]);
            agrees(&bytes);
        }
    }
    assert_eq!(sheet(&many).len(), MOST_BYTES);
}

#[test]
fn on_random_bytes() {
    let mut state = 7_u64;
    let mut next = || {
        state = state.wrapping_mul(0x5851_F42D_4C95_7F2D).wrapping_add(0x1405_7B7E_F767_814F);
        state >> 33
    };
    for _ in 0..50_000 {
        let count = next() as usize % 60;
        // Small bytes get farther into a sheet than any others.
        let most = [2, 4, 256][next() as usize % 3];
        let bytes: Vec<u8> = (0..count).map(|_| (next() % most) as u8).collect();
        agrees(&bytes);
    }
}
