//! A call and its answers, for a person to read: every number with its bits.
use super::asked::Asked;
use super::known::{Part, known, placed, shapes};
use super::lends::{Lends, REFERENCES};
use super::memory::{AROUND, Cell, Cells, LISTS, filled};
use super::run::Difference;
use crate::line::{Call, SheetCall};
use crate::replay::REPLAY;
use crate::sheets::{NUMBERS_OF, PATTERNS_OF, READ, VALUE_AT, WRITE};

/// So many numbers of a list are printed one by one; of more, only those that are not 0, or that differ.
const FEW: usize = 16;
const MOST: usize = 24;

/// A list that goes in.
fn list(name: &str, items: Vec<String>) {
    let n = items.len();
    if n == 0 {
        println!("      no {name}");
        return;
    }
    if n <= FEW {
        println!("      {name}, {n} of them: {}", items.join(", "));
        return;
    }
    let other: Vec<String> = (0..n).filter(|i| items[*i] != "0").map(|i| format!("{i}: {}", items[i])).collect();
    let more = other.len().saturating_sub(MOST);
    let rest = if more > 0 { format!(", and {more} more") } else { String::new() };
    println!("      {name}, {n} of them, 0 but for {}{rest}", other[..other.len() - more].join(", "));
}

/// The words that go in, by what they are.
fn words(op: u64, words: &[u64]) -> Vec<String> {
    let part = |(part, at, n): (Part, usize, usize)| match (part, &words[at..at + n]) {
        (Part::Beside, [0]) => None,
        (Part::Beside, w) => Some(format!("dims {} beside a flavor", w[0])),
        (Part::Dims, w) => Some(format!("d {}", w[0])),
        (Part::Flavor, [0, 0, 0, 0]) => Some("Vanilla".to_string()),
        (Part::Flavor, [1, 0, 0, 0]) => Some("Projective".to_string()),
        (Part::Flavor, [kind, p, n, z]) => Some(format!("kind {kind}, p {p}, n {n}, z {z}")),
        (Part::Word(name), w) => Some(format!("{name} {} ({:x})", w[0], w[0])),
        (Part::Power, w) => Some(format!("exponent {}", w[0] as u32 as i32)),
        (_, w) => Some(format!("text {:?}, bytes {w:x?}", w.iter().map(|b| *b as u8 as char).collect::<String>())),
    };
    placed(op, words.len()).into_iter().filter_map(part).collect()
}

/// A call's name and all that goes in.
pub fn call(asked: &Asked) {
    println!("    thresholm_{}", asked.name());
    let (Asked::Values(Call { words: said, .. }) | Asked::Sheet(SheetCall { words: said, .. })) = asked;
    for line in words(asked.op(), said) {
        println!("      {line}");
    }
    let numbers = |list: &[f64]| list.iter().map(|x| x.text()).collect::<Vec<_>>();
    match asked {
        Asked::Values(c) => {
            for (name, mark) in ["mark", "mark of the second"].iter().zip(c.marks).take(shapes(c.op)) {
                println!("      {name} {mark}");
            }
            for (name, given) in [("a", &c.a), ("b", &c.b)].into_iter().filter(|(_, given)| !given.is_empty()) {
                list(name, numbers(given));
            }
        }
        Asked::Sheet(c) => {
            let hex = |list: &[u64]| list.iter().map(|x| format!("{x:x}")).collect();
            match c.op {
                READ | REPLAY => list("bytes", hex(&c.first)),
                WRITE | VALUE_AT => list("bytes of shapes", hex(&c.first)),
                NUMBERS_OF => list("patterns", hex(&c.first)),
                PATTERNS_OF => {
                    list("numbers", numbers(&c.first.iter().map(|x| f64::from_bits(*x)).collect::<Vec<_>>()))
                }
                _ => {}
            }
            match c.op {
                WRITE => list("patterns", hex(&c.second)),
                REPLAY => list("steps", c.second.chunks(2).map(|step| format!("{step:x?}")).collect()),
                _ => {}
            }
        }
    }
    for (name, cells) in LISTS.iter().zip(asked.memory(0).lists()).skip(REFERENCES).filter(|(_, cells)| cells.len() > 0)
    {
        println!("      {name} has room for {}", cells.room());
    }
}

/// The names of the references in each of the first lists.
fn references(lends: Lends) -> [&'static [&'static str]; REFERENCES] {
    const SHAPE: [&str; 6] = ["to_dims", "to_kind", "to_p", "to_n", "to_z", "to_mark"];
    const RIGHT: [&str; 6] =
        ["to_dims_right", "to_kind_right", "to_p_right", "to_n_right", "to_z_right", "to_mark_right"];
    let bytes: &[&str] = match lends {
        Lends::Yes => &["to_yes"],
        Lends::Test => &["to_test"],
        _ => &SHAPE,
    };
    let counts: &[&str] = match lends {
        Lends::Start => &["to_start", "to_count"],
        Lends::Pose => &["to_steps"],
        Lends::Sheet => &["to_shapes", "to_count"],
        Lends::Place => &["to_start"],
        _ => &["to_count"],
    };
    let values: &[&str] = if lends == Lends::Test { &["to_re", "to_im"] } else { &["to_value"] };
    let right: &[&str] = if lends == Lends::Pose { &["to_stopped"] } else { &RIGHT };
    [bytes, right, counts, &["to_pairs"], &["to_order"], values]
}

/// The name of a cell: a reference's, or the output's with the place; before and after what is lent there are cells too.
fn cell_name(lends: Lends, which: usize, room: usize, i: usize) -> String {
    match (i.checked_sub(AROUND), references(lends).get(which)) {
        (Some(place), Some(names)) if place < room => names[place].to_string(),
        (Some(place), _) if place < room => format!("{}[{place}]", LISTS[which]),
        (Some(place), _) => format!("{} past its end by {}", LISTS[which], place - room + 1),
        (None, _) => format!("{} before its start by {}", LISTS[which], AROUND - i),
    }
}

fn cell(cells: &dyn Cells, i: usize, fill: u8) -> String {
    let is_filled = cells.bits(i) == filled(fill) & (cells.top() | (cells.top() - 1));
    if is_filled { "as it was".to_string() } else { cells.text(i) }
}

/// Both answers: all that is returned and lent, as far as it is little, and every cell that differs.
pub fn both(asked: &Asked, Difference { mut wanted, mut given, fill }: Difference) {
    let (lends, has_nan_bits) = (known(asked.op()).lends, wanted.has_nan_bits);
    line("returned", wanted.returned.to_string(), given.returned.to_string());
    if !given.kept {
        println!("      what went in was changed");
    }
    for (which, (right, other)) in wanted.lists().into_iter().zip(given.lists()).enumerate() {
        for i in 0..right.len() {
            let is_shown = (AROUND..AROUND + right.room().min(FEW)).contains(&i);
            if is_shown || !same(right, other, i, has_nan_bits) {
                line(&cell_name(lends, which, right.room(), i), cell(right, i, fill), cell(other, i, fill));
            }
        }
    }
}

fn line(name: &str, right: String, given: String) {
    if right == given {
        println!("      {name}: {right}");
    } else {
        println!("      {name}: {right} is right, {given} is given by the exports  <-");
    }
}

fn same(x: &dyn Cells, y: &dyn Cells, i: usize, has_nan_bits: bool) -> bool {
    let is_any_nan = |c: &dyn Cells| !has_nan_bits && c.is_number() && f64::from_bits(c.bits(i)).is_nan();
    x.bits(i) == y.bits(i) || is_any_nan(x) && is_any_nan(y)
}
