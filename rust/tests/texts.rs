//! Flavors, shapes and errors as text, with the width, the fill and the alignment that are asked for.
use thresholm::rig::Rig;
use thresholm::{Error, Flavor, MAX_DIMS, ParseShapeError, Shape};

const V: Flavor = Flavor::Vanilla;
const P: Flavor = Flavor::Projective;

#[test]
fn flavors() {
    for (flavor, text) in [
        (V, "VGA"),
        (P, "PGA"),
        (Flavor::Cl(3, 0, 0), "Cl3"),
        (Flavor::Cl(3, 1, 0), "Cl 3 1"),
        (Flavor::Cl(3, 0, 1), "Cl 3 0 1"),
        (Flavor::Cl(255, 255, 255), "Cl 255 255 255"),
        (Flavor::NULL, "Cl 0 0 255"),
    ] {
        assert_eq!(flavor.to_string(), text);
        assert_eq!(text.parse(), Ok(flavor));
    }
}

#[test]
fn shapes_are_written_as_in_the_text_of_a_rig() {
    for (shape, text) in [
        (Shape::new(3, P), "3 PGA"),
        (Shape::new(0, V), "0 VGA"),
        (Shape::new(4, Flavor::Cl(3, 0, 1)), "4 Cl 3 0 1"),
        (Shape::new(2, Flavor::Cl(3, 0, 0)), "2 Cl3"),
        (Shape::new(255, Flavor::NULL), "255 Cl 0 0 255"),
    ] {
        assert_eq!(shape.to_string(), text);
        assert_eq!(text.parse(), Ok(shape));
    }
}

#[test]
fn shapes_come_back_from_their_text() {
    let some = [0, 1, 9, 10, 99, 100, 255];
    let cl = some.iter().flat_map(|&p| some.iter().flat_map(move |&n| some.map(|z| Flavor::Cl(p, n, z))));
    for flavor in cl.chain([V, P]) {
        for dims in 0..=255 {
            let shape = Shape::new(dims, flavor);
            assert_eq!(shape.to_string().parse(), Ok(shape));
        }
    }
}

#[test]
fn shapes_are_read_from_the_other_forms() {
    for text in [
        " 3  PGA ",
        "3\tPGA\r",
        "003 PGA",
        "3, PGA",
        "3 dimensions, flavor PGA",
        "3 dimensions flavor PGA",
        "3 dimension, PGA",
        "3 flavor PGA",
    ] {
        assert_eq!(text.parse(), Ok(Shape::new(3, P)), "{text}");
    }
    for text in ["4 Cl 3,0,1", "4 Cl3 0 1", "4 Cl  +3\t0 01", "4 dimensions, flavor Cl 3 0 1"] {
        assert_eq!(text.parse(), Ok(Shape::new(4, Flavor::Cl(3, 0, 1))), "{text}");
    }
}

#[test]
fn the_text_of_a_rig_has_the_same_shapes() {
    let dims = ["", "x", "-1", "0", "3", "3,", "03", "3,,", "9", "10", "255", "256"];
    let between = ["", "dimensions,", "dimension", "flavor", "dimensions, flavor", "flavor dimensions", "PGA"];
    let flavors = ["", "VGA", "PGA", "pga", "é", "Cl", "Cl3", "Cl 3 0 1", "Cl3,+1", "Cl 3 x", "Cl 0 256", "Cl 1 1 1 1"];
    let mut read = 0;
    for text in dims.iter().flat_map(|d| between.iter().flat_map(move |b| flavors.map(|f| format!("{d} {b} {f}")))) {
        let shape = text.parse().ok().filter(|shape: &Shape| shape.dims() <= MAX_DIMS);
        let rig = format!("a: {text}\n  1 = 0\n").parse::<Rig>().ok();
        let shapes = rig.map(|rig| rig.sheet().shapes().to_vec());
        read += usize::from(shape.is_some());
        assert_eq!(shapes, shape.map(|shape| vec![shape]), "{text}");
    }
    // Five dimensions, with the five forms that are read, and the five flavors that are; PGA also before no flavor.
    assert_eq!(read, 5 * 5 * 5 + 5);
}

#[test]
fn what_is_no_shape_is_refused() {
    let no_dims = ParseShapeError::NoDims;
    let [many, flavor, spec] = [Error::TooManyDims, Error::NoFlavor, Error::NoSpec].map(ParseShapeError::Refused);
    for (text, error) in [
        ("", no_dims),
        (",", no_dims),
        ("PGA", no_dims),
        ("PGA 3", no_dims),
        ("-3 PGA", no_dims),
        ("+3 PGA", no_dims),
        ("3,, PGA", no_dims),
        ("3.0 PGA", no_dims),
        ("٣ PGA", no_dims),
        ("256 PGA", many),
        ("99999999999999999999999999 PGA", many),
        ("3", flavor),
        ("3 pga", flavor),
        ("3PGA", no_dims),
        ("3 PGA 4", flavor),
        ("3 flavor dimensions, PGA", flavor),
        ("3 dimensions dimensions PGA", flavor),
        ("3 é", flavor),
        ("3 Cl", spec),
        ("3 Cl x", spec),
        ("3 Cl 3 x", spec),
        ("3 Cl 3 0 256", spec),
        ("3 Cl 3 0 -1", spec),
        ("3 Cl 3 0 1 0", spec),
    ] {
        assert_eq!(text.parse::<Shape>(), Err(error), "{text}");
        assert!(error.to_string().len() > 20);
    }
    assert_eq!(spec.to_string(), Error::NoSpec.to_string());
    let boxed: Box<dyn std::error::Error> = Box::new(no_dims);
    assert_eq!(boxed.to_string(), "a shape is written with its dimensions and its flavor, such as 3 PGA");
}

#[test]
fn any_text_is_answered() {
    let parts = [
        "3",
        "0",
        "9",
        "2",
        " ",
        "\t",
        ",",
        "PGA",
        "VGA",
        "Cl",
        "dimensions,",
        "flavor",
        "é",
        "\u{2003}",
        "\n",
        "+",
        "x",
    ];
    let (mut seed, mut read) = (0x2545_F491_4F6C_DD1D_u64, 0);
    for _ in 0..100_000 {
        let mut text = String::new();
        for _ in 0..seed % 8 {
            seed = seed.wrapping_mul(0x5851_F42D_4C95_7F2D).wrapping_add(0x1405_7B7E_F767_814F);
            text += parts[usize::try_from(seed >> 33).unwrap() % parts.len()];
        }
        seed = seed.rotate_left(5);
        if let Ok(shape) = text.parse::<Shape>() {
            read += 1;
            assert_eq!(shape.to_string().parse(), Ok(shape), "{text}");
        }
    }
    assert!(read > 100, "{read}");
}

#[test]
fn width_fill_and_alignment_are_honoured() {
    assert_eq!(format!("[{P:5}][{P:>5}][{P:*^5}]"), "[PGA  ][  PGA][*PGA*]");
    let shape = Shape::new(4, Flavor::Cl(3, 0, 1));
    assert_eq!(format!("[{shape:<12}][{shape:->12}]"), "[4 Cl 3 0 1  ][--4 Cl 3 0 1]");
    let (error, no_shape) = (Error::NoRoom, ParseShapeError::NoDims);
    assert_eq!(format!("{error:>60}").chars().count(), 60);
    assert_eq!(format!("{no_shape:>80}").chars().count(), 80);
    assert_eq!(format!("{:>60}", error).trim_start(), error.to_string());
}
