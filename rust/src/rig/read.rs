//! A rig read from its text: for each value a line `NAME: DIMS FLAVOR`, and after it its numbers.
use super::blades::{blade_names, place_of};
use super::fault::Fault;
use super::header::started;
use super::numbers::{is_blade_like, pattern_of};
use super::text::{Piece, commented_lines};
use super::words::{counted, quoted};
use crate::shape::Shape;
use crate::sheet::{MAX_PATTERNS, MAX_SHAPES};

/// What is read so far.
#[derive(Default)]
pub struct Read {
    pub names: Vec<String>,
    pub shapes: Vec<Shape>,
    /// The bit patterns of all numbers, value after value.
    pub patterns: Vec<u64>,
}

/// A value whose numbers are not read yet.
struct Draft<'t> {
    name: Piece<'t>,
    shape: Shape,
    words: Vec<Piece<'t>>,
}

/// All values of a text, or the first fault in it.
pub fn read(text: &str) -> Result<Read, Fault> {
    let mut read = Read::default();
    let mut draft: Option<Draft> = None;
    for (line, comment) in commented_lines(text) {
        let started =
            started(line, comment).map_err(|fault| draft.as_ref().and_then(Draft::fault_so_far).unwrap_or(fault))?;
        if let Some((name, shape)) = started {
            draft.take().map_or(Ok(()), |draft| read.finish(draft))?;
            draft = Some(read.start(name, shape)?);
            continue;
        }
        let words = line.words();
        match (&mut draft, words.first()) {
            (Some(draft), _) => draft.words.extend(words),
            (None, Some(first)) => {
                return first
                    .fault("a value starts with a line such as 'left microphone: 3 PGA', and its numbers follow it");
            }
            (None, None) => {}
        }
    }
    draft.map_or(Ok(()), |draft| read.finish(draft))?;
    Ok(read)
}

impl Read {
    /// A value from its first line; with it the rig is within the limits of a sheet.
    fn start<'t>(&self, name: Piece<'t>, shape: Shape) -> Result<Draft<'t>, Fault> {
        let numbers = self.patterns.len() + shape.blade_count().or_else(|error| name.fault(error.to_string()))?;
        if self.shapes.len() == MAX_SHAPES {
            return name.fault(format!("a rig sheet has at most {MAX_SHAPES} values; this is one more"));
        }
        if numbers > MAX_PATTERNS {
            return name
                .fault(format!("a rig sheet has at most {MAX_PATTERNS} numbers; with this value there are {numbers}"));
        }
        Ok(Draft { name, shape, words: Vec::new() })
    }

    /// A value with its numbers.
    fn finish(&mut self, draft: Draft) -> Result<(), Fault> {
        let patterns = draft.patterns()?;
        self.names.push(draft.name.text.to_string());
        self.shapes.push(draft.shape);
        self.patterns.extend(patterns);
        Ok(())
    }
}

impl Draft<'_> {
    /// The patterns of its numbers, which are all of one form.
    fn patterns(&self) -> Result<Vec<u64>, Fault> {
        match self.words.iter().any(|word| word.text == "=") {
            _ if self.words.is_empty() => {
                self.name.fault("this value has no numbers (a value of zeros is written 1 = 0)")
            }
            true => by_blades(self),
            false => in_order(self),
        }
    }

    /// A fault in the words that are here so far. That some are missing is none: a line with a fault follows, which may be meant to hold them.
    fn fault_so_far(&self) -> Option<Fault> {
        self.patterns().err().filter(|fault| fault.line() > self.name.line)
    }
}

/// The pattern of a number's word.
fn pattern(word: &Piece) -> Result<u64, Fault> {
    pattern_of(word.text).or_else(|what| word.fault(what))
}

/// A list of all numbers, in the order of places.
fn in_order(draft: &Draft) -> Result<Vec<u64>, Fault> {
    let patterns: Vec<u64> = draft.words.iter().map(pattern).collect::<Result<_, _>>()?;
    let needed = draft.shape.blade_count().or_else(|error| draft.name.fault(error.to_string()))?;
    let count = patterns.len();
    let dims = counted(draft.shape.dims().into(), "dimension");
    let rule = format!("a value of {dims} has {}", counted(needed, "number"));
    match draft.words.get(needed) {
        Some(extra) => extra.fault(format!("this number is too many: {rule}, and here are {count}")),
        None if count < needed => draft.name.fault(format!("{rule}, and here are {count}")),
        None => Ok(patterns),
    }
}

/// Numbers by the names of their blades, `e12 = 0.5`; those that are not named are 0.
fn by_blades(draft: &Draft) -> Result<Vec<u64>, Fault> {
    let names = blade_names(draft.shape);
    let mut patterns = vec![None; names.len()];
    let mut words = draft.words.iter();
    while let Some(blade) = words.next() {
        let place = match place_of(&names, blade.text) {
            Ok(place) => place,
            Err(why) => return no_blade(blade, &why),
        };
        let sign = words.next().filter(|sign| sign.text == "=");
        let Some(number) = sign.and_then(|_| words.next()) else {
            return blade.fault(format!("after the blade {} come '=' and its number", quoted(blade.text)));
        };
        if number.text == "=" || is_blade_like(number.text) {
            return number.fault(format!(
                "after '{} =' comes its number, and here is {}",
                blade.text,
                quoted(number.text)
            ));
        }
        if patterns[place].replace(pattern(number)?).is_some() {
            return blade.fault(format!("the blade {} is here for the second time", quoted(blade.text)));
        }
    }
    Ok(patterns.into_iter().map(Option::unwrap_or_default).collect())
}

/// What is wrong with a word where a blade is to stand.
fn no_blade<T>(word: &Piece, why: &str) -> Result<T, Fault> {
    match pattern_of(word.text) {
        _ if word.text == "=" => word.fault("before '=' stands the name of a blade, such as e12"),
        _ if [",", ";"].contains(&word.text) => word.fault("put only spaces between numbers"),
        Ok(_) => word.fault(format!(
            "this number has no blade: {} (where one is given by its blade, as e12 = 0.5, all are)",
            quoted(word.text)
        )),
        Err(_) => word.fault(format!("there is no blade {}: {why}", quoted(word.text))),
    }
}
