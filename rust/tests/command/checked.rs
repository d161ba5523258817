//! `thresholm check`: valid, or what is the first that is wrong.
use crate::support::{file, folder, run, sheet};
use thresholm::{Flavor, Shape};

#[test]
fn a_good_sheet_is_valid() {
    let folder = folder("valid");
    let shapes = [Shape::new(3, Flavor::Projective), Shape::new(1, Flavor::Cl(1, 2, 3))];
    let rig = file(&folder, "room.rig", &sheet(&shapes, &[0; 10]));
    assert_eq!(run(&["check", &rig]).done(), format!("{rig}: valid: 2 values, 10 coefficients\n"));
    let rig = file(&folder, "none.rig", &[0; 6]);
    assert_eq!(run(&["check", &rig]).done(), format!("{rig}: valid: 0 values, 0 coefficients\n"));
}

/// A byte of a sheet of two values, what it is changed to, and what is said of that.
const WRONG: [(usize, u8, &str); 6] = [
    (0, 65, "the number that starts at byte 0: the count of values is 65; a sheet has at most 64"),
    (1, 1, "the number that starts at byte 0: the count of values is 258; a sheet has at most 64"),
    (8, 3, "byte 8: the kind of value 1 is 3; it must be 0, 1 or 2"),
    (11, 1, "byte 11: z of value 1 is 1; it must be 0, since the kind is not 2"),
    (12, 4, "the number that starts at byte 12: the count of coefficients is 4; the values have 3"),
    (15, 1, "the number that starts at byte 12: the count of coefficients is 16777219; a sheet has at most 4096"),
];

#[test]
fn what_is_wrong_is_explained_by_every_subcommand() {
    let folder = folder("wrong");
    let good = sheet(&[Shape::default(), Shape::new(1, Flavor::Vanilla)], &[1, 2, 3]);
    for (at, byte, says) in WRONG {
        let mut bytes = good.clone();
        bytes[at] = byte;
        let rig = file(&folder, "wrong.rig", &bytes);
        for arguments in [&["check", &rig][..], &["show", &rig], &["product", &rig, "0", "0"], &["replay", &rig, &rig]]
        {
            assert_eq!(run(arguments).refused(), format!("{rig}: {says}\n"));
        }
    }
    let rig = file(&folder, "short.rig", &good[..30]);
    assert_eq!(
        run(&["check", &rig]).refused(),
        format!("{rig}: byte 30: the file ends here, in coefficient 1 of 3; the sheet has 40 bytes\n")
    );
    let rig = file(&folder, "long.rig", &[&good[..], b"\n"].concat());
    assert_eq!(
        run(&["check", &rig]).refused(),
        format!("{rig}: byte 40: the sheet has 40 bytes; nothing may follow it\n")
    );
}

#[test]
fn a_text_is_not_taken_for_a_sheet() {
    let folder = folder("text");
    let of_it = "this looks like a text, and no rig sheet: thresholm import makes a sheet of it";
    let of_one = "this looks like a text, and no rig sheet: thresholm import makes a sheet of a rig's text";
    let log = "this looks like the text of a log, and no rig sheet: thresholm import --over makes the bytes of it";
    for (text, says) in [
        ("# é\r\nmic: 0 VGA\n\t1".as_bytes(), of_it),
        (b"\n", of_it),
        (b"left quarter turn\nreverse", log),
        (b"mic: 0 VGA", of_one),
        (b"left microphone 3 PGA\n 1 = 1", of_one),
        (b"mic: 0 VGA # caf\xE9", of_one),
        (b"\xFF\xFEm\0i\0c\0", of_one),
    ] {
        let text = file(&folder, "room.txt", text);
        for subcommand in ["check", "show"] {
            assert_eq!(run(&[subcommand, &text]).refused(), format!("{text}: {says}\n"));
        }
    }
    for bytes in [&b""[..], b"mic\x00", b"\x01mic"] {
        let other = file(&folder, "other", bytes);
        assert!(!run(&["check", &other]).refused().contains("looks like"));
    }
}

#[test]
fn numbers_that_are_not_finite_are_noted_or_refused() {
    let folder = folder("not-finite");
    let odd = |bits: &[u64]| -> Vec<u64> { [&[0], bits, &[0; 3]].concat() };
    let shapes = [Shape::default(), Shape::new(2, Flavor::Projective)];
    let rig = file(&folder, "odd.rig", &sheet(&shapes, &odd(&[0xFFF0 << 48])));
    let valid = format!("{rig}: valid: 2 values, 5 coefficients\n  note: value 1: 1 is -inf\n");
    assert_eq!(run(&["check", &rig]).done(), valid);
    let says = format!("{rig}: byte 24: coefficient 0 of value 1, at 1, is -inf: not allowed by --strict\n");
    assert_eq!(run(&["check", &rig, "--strict"]).refused(), says);
    let text = file(&folder, "mic.txt", b"left mic: 3 PGA\n e12 = nan");
    let rig = folder.join("mic.rig").to_str().expect("a plain path").to_string();
    run(&["import", &text, "-o", &rig]).done();
    let says =
        format!("{rig}: byte 59: coefficient 6 of value 0 (left mic), at e12, is nan: not allowed by --strict\n");
    assert_eq!(run(&["check", "--strict", &rig]).refused(), says);
    let nan = std::fs::read(&rig).expect("a sheet").split_off(59);
    assert_eq!(nan[..8], f64::NAN.to_bits().to_le_bytes(), "there it is");
    let many = file(&folder, "many.rig", &sheet(&[Shape::new(4, Flavor::Vanilla)], &[0x7FF8 << 48; 16]));
    let refused = run(&["check", "--strict", &many]).refused();
    assert_eq!((refused.lines().count(), refused.lines().last()), (9, Some(&*format!("{many}: and 8 more"))));
}

#[test]
fn strict_refuses_an_empty_sheet_and_no_good_one() {
    let folder = folder("strict");
    let none = file(&folder, "none.rig", &[0; 6]);
    let says = format!("{none}: byte 0: the sheet has no values: not allowed by --strict\n");
    assert_eq!(run(&["check", "--strict", &none]).refused(), says);
    let good = file(&folder, "good.rig", &sheet(&[Shape::default()], &[f64::MAX.to_bits()]));
    assert_eq!(run(&["check", "--strict", &good]).done(), format!("{good}: valid: 1 value, 1 coefficient\n"));
}

#[test]
fn every_file_is_checked() {
    let folder = folder("several");
    let one = file(&folder, "one.rig", &sheet(&[Shape::default()], &[1]));
    let odd = file(&folder, "odd.rig", &sheet(&[Shape::default()], &[0x7FF0 << 48]));
    let bad = file(&folder, "bad.rig", &[65, 0]);
    let none = format!("{}/none.rig", folder.display());
    let good = format!("{one}: valid: 1 value, 1 coefficient\n");
    let noted = format!("{odd}: valid: 1 value, 1 coefficient\n  note: value 0: 1 is inf\n");
    assert_eq!(run(&["check", &odd, &one, &one]).done(), format!("{noted}{good}{good}"));
    let wrong = "the number that starts at byte 0: the count of values is 65; a sheet has at most 64";
    let mixed = run(&["check", &bad, &one, &none, &odd]);
    assert_eq!((mixed.status, mixed.out), (1, format!("{good}{noted}")));
    let (first, rest) = mixed.err.split_once('\n').expect("two lines");
    assert_eq!(first, format!("{bad}: {wrong}"));
    assert!(rest.starts_with(&format!("{none}: it cannot be read: ")) && rest.lines().count() == 1, "{rest}");
    let strict = run(&["check", &one, "--strict", &odd]);
    let says = format!("{odd}: byte 11: coefficient 0 of value 0, at 1, is inf: not allowed by --strict\n");
    assert_eq!((strict.status, strict.out, strict.err), (1, good, says));
}

#[cfg(unix)]
#[test]
fn an_endless_file_is_refused() {
    assert_eq!(
        run(&["check", "/dev/zero"]).refused(),
        "/dev/zero: byte 6: the sheet has 6 bytes; nothing may follow it\n"
    );
}
