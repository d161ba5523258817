//! `thresholm::rig`: texts read, faults with their places, and rigs written so that they read back.
use thresholm::rig::{Fault, Rig, blade_names, shape_words, spelled};
use thresholm::{Flavor, MAX_PATTERNS, MAX_SHAPES, Shape, Sheet};

/// Numbers drawn from a seed.
struct Draw(u64);

impl Draw {
    fn next(&mut self) -> u64 {
        self.0 ^= self.0 << 13;
        self.0 ^= self.0 >> 7;
        self.0 ^= self.0 << 17;
        self.0
    }

    fn pick<T: Copy>(&mut self, all: &[T]) -> T {
        all[(self.next() % all.len() as u64) as usize]
    }

    /// A pattern, now and then one that is seldom met.
    fn pattern(&mut self) -> u64 {
        let rare = [0, 0, 1, 1 << 63, 0x7FF0 << 48, 0xFFF0 << 48, 0x7FF8 << 48, u64::MAX, 0x7FF0_0000_0000_0001];
        if self.next().is_multiple_of(2) { self.pick(&rare) } else { self.next() }
    }

    fn sheet(&mut self) -> Sheet {
        let flavors = [Flavor::Vanilla, Flavor::Projective, Flavor::Cl(3, 0, 1), Flavor::Cl(0, 1, 0), Flavor::NULL];
        let shapes: Vec<Shape> =
            (0..self.next() % 6).map(|_| Shape::new((self.next() % 6) as u8, self.pick(&flavors))).collect();
        let count: usize = shapes.iter().map(|shape| 1 << shape.dims()).sum();
        let patterns: Vec<u64> = (0..count).map(|_| self.pattern()).collect();
        Sheet::new(shapes, patterns).expect("a good sheet")
    }
}

fn fault(text: &str) -> Fault {
    text.parse::<Rig>().expect_err("a fault")
}

#[test]
fn the_example_is_read() {
    let path = concat!(env!("CARGO_MANIFEST_DIR"), "/../examples/room.txt");
    let rig = Rig::from_utf8(&std::fs::read(path).expect("it is there")).expect("a good text");
    assert_eq!((rig.names().len(), &*rig.names()[10]), (12, "second dolly turn"));
    assert!(rig.sheet().shapes().iter().all(|shape| *shape == Shape::new(3, Flavor::Projective)));
    assert_eq!(rig.sheet().value(6).expect("the screen").numbers(), [0.0, -6000.0, 0.0, 1.0, 0.0, 0.0, 0.0, 0.0]);
    assert_eq!(rig.to_string().parse(), Ok(rig));
}

#[test]
fn what_is_written_reads_back() {
    let mut draw = Draw(11);
    let names = ["left microphone", "", "é", "a\tb", "a  b", "=", "0x1", "\u{1b}[31m", "value 3", "dimensions, flavor"];
    for _ in 0..300 {
        let sheet = draw.sheet();
        let named: Vec<&str> = (0..sheet.len()).map(|_| draw.pick(&names)).collect();
        let rig = Rig::with_names(sheet.clone(), named.clone()).expect("good names");
        let again: Rig = rig.to_string().parse().expect("a good text");
        assert_eq!((again.names(), again.sheet().to_bytes()), (rig.names(), sheet.to_bytes()));
    }
}

#[test]
fn a_sheet_has_values_by_number() {
    let sheet =
        Sheet::new([Shape::default(), Shape::new(1, Flavor::Projective)], [1 << 62, 0, 1 << 63]).expect("a sheet");
    let expected = "\
value 0: 0 dimensions, flavor VGA
  # a number alone
  # 2
  1 = 2

value 1: 1 dimension, flavor PGA
  # e0 squares to 0
  # 0e₀
  e0 = -0
  # the other one is 0
";
    assert_eq!(Rig::from(sheet.clone()).to_string(), expected);
    assert_eq!(Rig::from(sheet.clone()).into_sheet(), sheet);
    let none = Rig::from(Sheet::new([], []).expect("an empty sheet"));
    assert_eq!((none.to_string().as_str(), none.names().len()), ("", 0));
}

#[test]
fn a_name_that_no_text_holds_is_not_taken() {
    let sheet = Sheet::new([Shape::default()], [0]).expect("a sheet");
    for name in ["a:b", "a#b", "a\nb", " a", "a ", "\u{2003}a", "\r"] {
        assert_eq!(Rig::with_names(sheet.clone(), [name]), None, "{name:?}");
    }
    assert_eq!(Rig::with_names(sheet.clone(), ["a", "b"]), None);
    assert_eq!(Rig::with_names(sheet.clone(), [""; 0]), None);
    assert!(Rig::with_names(sheet, ["a b"]).is_some());
}

#[test]
fn a_fault_has_its_line_its_column_and_its_words() {
    let fault = fault("# é\nmic: 2 VGA\n  é = 1");
    assert_eq!((fault.line(), fault.column()), (3, 3));
    assert_eq!(fault.what(), "there is no blade 'é': the blades of this value are 1 e1 e2 e12");
    assert_eq!(fault.to_string(), format!("3:3: {}", fault.what()));
    let boxed: Box<dyn std::error::Error> = Box::new(fault.clone());
    assert_eq!(boxed.to_string(), fault.to_string());
}

#[test]
fn bytes_that_are_no_text_are_a_fault() {
    let good = Rig::from_utf8("\u{feff}é: 0 VGA\n1".as_bytes()).expect("a good text");
    assert_eq!(good.names(), ["é"]);
    let fault = Rig::from_utf8(b"mic: 0 VGA # \xC3\xA9\n1 # caf\xE9").expect_err("a fault");
    assert_eq!(fault.to_string(), "2:8: the byte 0xE9 is no part of a text (save the file as UTF-8)");
}

#[test]
fn the_limits_are_those_of_a_sheet() {
    let text = |count: usize, dims: u8| (0..count).map(|_| format!(": {dims} VGA\n1 = 0\n")).collect::<String>();
    let most = |rig: Rig| (rig.sheet().len(), rig.sheet().patterns().len());
    assert_eq!(text(MAX_SHAPES, 6).parse().map(most), Ok((MAX_SHAPES, MAX_PATTERNS)));
    assert_eq!(fault(&text(65, 0)).to_string(), "129:1: a rig sheet has at most 64 values; this is one more");
    let many = fault(&text(9, 9)).to_string();
    assert_eq!(many, "17:1: a rig sheet has at most 4096 numbers; with this value there are 4608");
}

#[test]
fn words_and_names() {
    assert_eq!(shape_words(Shape::new(1, Flavor::Cl(3, 0, 1))), "1 dimension, flavor Cl 3 0 1");
    assert_eq!(blade_names(Shape::new(10, Flavor::Vanilla)), [""; 0]);
    assert_eq!(blade_names(Shape::new(3, Flavor::Cl(0, 0, 1))).join(" "), "1 e0 e1 e2 e01 e20 e12 e012");
    assert_eq!([0.1, -0.0, 1e-7, 1e16, f64::INFINITY].map(spelled), ["0.1", "-0", "1e-7", "1e16", "inf"]);
}

/// Pieces that texts are made of, and some that they are not.
const PIECES: [&str; 36] = [
    "a",
    ":",
    ":",
    "\n",
    "\n",
    "\n",
    " ",
    " ",
    "=",
    "=",
    "#",
    "0",
    "1",
    "2",
    "3",
    "9",
    "10",
    "VGA",
    "PGA",
    "Cl",
    "Cl 3 0 1",
    "dimensions,",
    "flavor",
    "e1",
    "e12",
    "e20",
    "-",
    ".",
    ",",
    "1e999",
    "0x",
    "0x7FF8000000000001",
    "nan",
    "é",
    "\r",
    "\0",
];

#[test]
fn every_text_is_answered() {
    let (mut draw, mut good) = (Draw(12), 0);
    for round in 0..20_000 {
        let start = draw.pick(&["", "a: 0 VGA\n", "a: 1 PGA\n1 ", "a: 2 VGA\ne1 = "]);
        let text: String = std::iter::once(start).chain((0..round % 40).map(|_| draw.pick(&PIECES))).collect();
        match text.parse::<Rig>() {
            Ok(rig) => {
                assert_eq!(rig.to_string().parse(), Ok(rig), "{text:?}");
                good += 1;
            }
            Err(fault) => {
                let line = text.split('\n').nth(fault.line() - 1).expect("a line of the text");
                assert!((1..=line.chars().count() + 1).contains(&fault.column()), "{text:?}: {fault}");
            }
        }
    }
    assert!(good > 300, "{good} are read");
}
