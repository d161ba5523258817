//! `thresholm product --json`: docs/JSON.md says what is promised of it.
use crate::demand::{Kind, list};
use crate::multiplied::rig;
use crate::parsed::{Parsed, parsed};
use crate::support::{Rng, file, folder, run, sheet};
use thresholm::bound::{Chain, Guarantee, Size, of_general_product};
use thresholm::{Multivector, Shape};

/// An answer, with RIG for the name of the file.
const PRODUCT: &str = r#"{
  "thresholm": "product",
  "form": 1,
  "rig": "RIG",
  "note": null,
  "factors": [
    {
      "value": 1,
      "name": "a \"turn\""
    },
    {
      "value": 2,
      "name": null
    },
    {
      "value": 0,
      "name": "mic"
    }
  ],
  "shape": {
    "dims": 2,
    "flavor": "PGA"
  },
  "blades": ["1", "e0", "e1", "e01"],
  "numbers": [0.4, 0.2, 0.8, 0],
  "within": [2.8643754035329045e-14, 2.1471713296250528e-14, 4.307665335545608e-14, 0],
  "exact": false,
  "opened": null,
  "steps": [
    {
      "step": 1,
      "left": "value 1 (a \"turn\")",
      "right": "value 2",
      "notes": [],
      "pairs": 1,
      "shape": {
        "dims": 0,
        "flavor": "VGA"
      },
      "blades": ["1"],
      "numbers": [0.4],
      "within": [1.4299672557172018e-14]
    },
    {
      "step": 2,
      "left": "the result of step 1",
      "right": "value 0 (mic)",
      "notes": ["the result of step 1 (0 dimensions, flavor VGA) is first brought to 2 dimensions, flavor PGA"],
      "pairs": 12,
      "shape": {
        "dims": 2,
        "flavor": "PGA"
      },
      "blades": ["1", "e0", "e1", "e01"],
      "numbers": [0.4, 0.2, 0.8, 0],
      "within": [1.4344081478157024e-14, 1.4321877017664523e-14, 1.4477308241112042e-14, 1.4210854715202004e-14]
    }
  ]
}
"#;

#[test]
fn a_product_is_answered() {
    let text = "mic: 2 PGA\n 1 0.5 2 0\na \"turn\": 0 VGA\n 0.1\n: 0 VGA\n 4";
    let text = file(&folder("answered-product"), "room.txt", text.as_bytes());
    let out = run(&["product", &text, "a \"turn\"", "2", "mic", "--json"]).done();
    assert_eq!(out.replace(&text, "RIG"), PRODUCT);
    parsed(&out);
}

/// Drawn numbers, of every kind.
fn drawn(r: &mut Rng) -> Vec<(Shape, Vec<f64>)> {
    let kind = r.pick(&[Kind::Grid(3, 6), Kind::Sized(2), Kind::Sized(100), Kind::Sized(401), Kind::Bits]);
    let count = 2 + r.below(4);
    let one = |_| {
        let shape = Shape::new(r.below(4) as u8, r.flavor());
        list(r, shape, kind)
    };
    (0..count).map(one).collect()
}

/// Numbers that read back are these; the bits of a NaN are lost.
fn same(read: &Parsed, numbers: &[f64]) {
    let read = read.numbers();
    assert_eq!(read.len(), numbers.len());
    for (read, number) in read.iter().zip(numbers) {
        let read = read.expect("a number");
        assert!(read.to_bits() == number.to_bits() || read.is_nan() && number.is_nan(), "{read} for {number}");
    }
}

#[test]
fn numbers_read_back_with_the_bounds_of_the_whole_and_of_each_step() {
    let folder = folder("answered-numbers");
    let (mut r, mut open) = (Rng(8), 0);
    for _ in 0..60 {
        let lists = drawn(&mut r);
        let shapes: Vec<Shape> = lists.iter().map(|(shape, _)| *shape).collect();
        let patterns: Vec<u64> = lists.iter().flat_map(|(_, numbers)| numbers.iter().map(|x| x.to_bits())).collect();
        let rig = file(&folder, "drawn.rig", &sheet(&shapes, &patterns));
        let factors = (0..lists.len()).map(|index| index.to_string());
        let words = ["product", &rig, "--json"].map(str::to_string);
        let answer = parsed(&run(&words.into_iter().chain(factors).collect::<Vec<_>>()).done());
        let mut values =
            lists.iter().map(|(shape, numbers)| Multivector::new(*shape, numbers.clone()).expect("a value"));
        let mut chain = Chain::new(values.next().expect("a factor"));
        for (step, right) in answer.field("steps").list().iter().zip(values) {
            let bound = of_general_product(chain.value(), &right).expect("it is done");
            let own = bound.coefficients().iter().map(|coefficient| match coefficient.guarantee() {
                Guarantee::Exact => Some(0.0),
                Guarantee::Within(limit) => Some(limit.to_f64()),
                _ => None,
            });
            assert_eq!(step.field("within").numbers(), own.collect::<Vec<_>>());
            chain = chain.general_product(&Chain::new(right)).expect("it is done");
            same(step.field("numbers"), chain.value().numbers());
        }
        same(answer.field("numbers"), chain.value().numbers());
        let within = answer.field("within").numbers();
        let distances = chain.distances().map(|distances| distances.iter().map(Size::to_f64).map(Some).collect());
        assert_eq!(within, distances.unwrap_or(vec![None; within.len()]));
        assert_eq!(answer.field("exact"), &Parsed::Flag(chain.is_exact()));
        assert_eq!(answer.field("opened") == &Parsed::Null, chain.opened().is_none());
        open += usize::from(chain.opened().is_some());
    }
    assert!((10..50).contains(&open), "{open}");
}

#[test]
fn where_a_product_opens_is_answered() {
    let rig = rig("answered-open", "a: 1 VGA\n 0.1 inf\nb: 1 VGA\n 0.1 1e130");
    let opened = |factors: &[&str]| {
        let answer = parsed(&run(&[&["product", &rig, "--json"], factors].concat()).done());
        assert_eq!(answer.field("exact"), &Parsed::Flag(false));
        assert_eq!(answer.field("within").list(), [Parsed::Null, Parsed::Null]);
        [answer.field("opened").field("step"), answer.field("opened").field("why")].map(Parsed::clone)
    };
    let why = |what: &str| Parsed::Text(format!("{what}: sizes must be 0 or from 2^-400 to 2^400"));
    let step = |step: &str| Parsed::Number(step.to_string());
    assert_eq!(opened(&["0", "1"]), [step("1"), why("value 0 has inf at e1")]);
    assert_eq!(opened(&["1", "1", "0"]), [step("1"), why("value 1 has 1e130 at e1")]);
    let infinite = parsed(&run(&["product", &rig, "--json", "0", "0"]).done());
    assert_eq!(infinite.field("numbers").list(), [Parsed::Text("inf".to_string()), Parsed::Text("inf".to_string())]);
}

#[test]
fn names_that_are_not_used_are_answered() {
    let rig = rig("answered-unused", "a: 0 VGA\n 1");
    std::fs::write(format!("{rig}.names"), "a\n").expect("a file");
    let answer = parsed(&run(&["product", &rig, "0", "0", "--json"]).done());
    let note = format!("{rig}.names is not used: it is no file of names");
    assert_eq!(answer.field("note"), &Parsed::Text(note));
    assert_eq!(answer.field("factors").list()[0].field("name"), &Parsed::Null);
}

#[test]
fn a_refusal_answers_nothing() {
    let rig = rig("answered-refused", "a: 9 VGA\n 1 = 1\nb: 1 PGA\n 1 2");
    let says = |message: String| message.strip_prefix(&rig).expect("the name of the file").to_string();
    assert!(says(run(&["product", &rig, "--json", "0", "1"]).refused()).starts_with(": step 1: value 0 times value 1"));
    assert!(says(run(&["product", &rig, "--json", "0", "2"]).refused()).starts_with(": there is no value 2"));
    let both = run(&["product", &rig, "--json", "0", "1", "--steps"]).misused();
    assert!(both.starts_with("thresholm: --steps and --json cannot both be asked for\n"), "{both}");
}
