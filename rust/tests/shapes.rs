//! Shapes as six bytes: what is read from them, and how they are made anew.
use std::collections::HashSet;
use thresholm::{Flavor, Shape, lent};

#[test]
fn a_shape_is_six_bytes() {
    assert_eq!(size_of::<Shape>(), 6);
    assert_eq!(Shape::new(3, Flavor::Vanilla).to_bytes(), [3, 0, 0, 0, 0, 0]);
    assert_eq!(Shape::new(9, Flavor::Projective).to_bytes(), [9, 1, 0, 0, 0, 0]);
    assert_eq!(Shape::new(255, Flavor::Cl(3, 1, 2)).to_bytes(), [255, 2, 3, 1, 2, 0]);
    assert_eq!(Shape::default(), Shape::new(0, Flavor::Vanilla));
}

#[test]
fn any_six_bytes_are_made_anew() {
    let some = [0, 1, 2, 3, 255];
    let mut shapes = HashSet::new();
    for kind in 0..=255 {
        for (p, n) in some.iter().flat_map(|&p| some.map(|n| (p, n))) {
            let shape = Shape::from_bytes([7, kind, p, n, 9, 200]);
            let flavor = match kind {
                0 => Flavor::Vanilla,
                1 => Flavor::Projective,
                _ => Flavor::Cl(p, n, 9),
            };
            assert_eq!((shape.dims(), shape.flavor()), (7, flavor));
            assert_eq!(shape, Shape::new(7, flavor));
            assert_eq!(Shape::from_bytes(shape.to_bytes()), shape);
            shapes.insert(shape);
        }
    }
    // One Vanilla shape, one Projective one, and one for each p and n.
    assert_eq!(shapes.len(), 2 + some.len() * some.len());
}

#[test]
fn parts_are_changed_one_by_one() {
    let shape = Shape::new(2, Flavor::Vanilla);
    assert_eq!(shape.with_dims(77), Shape::new(77, Flavor::Vanilla));
    assert_eq!(shape.with_flavor(Flavor::Projective), Shape::new(2, Flavor::Projective));
}

#[test]
fn calls_report_shapes_as_they_are_made() {
    let mut out = [0.0; 8];
    for flavor in [Flavor::Vanilla, Flavor::Projective, Flavor::Cl(0, 0, 0), Flavor::Cl(255, 254, 253)] {
        for dims in 0..=3 {
            let shape = Shape::new(dims, flavor);
            let numbers = [1.0; 8];
            assert_eq!(lent::neg(shape, &numbers[..1 << dims], &mut out), Ok(shape));
        }
    }
}

#[test]
fn a_shape_is_shown_by_its_parts() {
    let shape = Shape::new(4, Flavor::Cl(3, 0, 1));
    assert_eq!(format!("{shape:?}"), "Shape { dims: 4, flavor: Cl(3, 0, 1) }");
}
