//! What calls.txt says.

/// The whole table.
#[derive(Debug, Default)]
pub struct Table {
    pub version: Version,
    pub refusals: Vec<Refusal>,
    pub constants: Vec<Constants>,
    /// The parameters that mean the same wherever nothing else is said.
    pub usual: Vec<Parameter>,
    pub groups: Vec<Group>,
}

/// The version of the library, which calls and constants report as one number.
#[derive(Clone, Copy, Debug, Default, PartialEq, Eq)]
pub struct Version {
    pub major: u32,
    pub minor: u32,
    pub patch: u32,
}

/// A number that a call returns; 0 is no refusal and has no variant in Rust.
#[derive(Debug)]
pub struct Refusal {
    pub number: u8,
    pub name: String,
    pub variant: String,
    /// When it is given, as the header has it.
    pub condition: String,
    /// What people read.
    pub sentence: String,
}

/// Constants that belong together.
#[derive(Debug)]
pub struct Constants {
    pub title: String,
    pub list: Vec<Constant>,
}

#[derive(Debug)]
pub struct Constant {
    pub name: String,
    pub value: u64,
    pub meaning: String,
}

/// Calls that belong together.
#[derive(Debug)]
pub struct Group {
    pub title: String,
    pub text: String,
    pub calls: Vec<Call>,
}

#[derive(Debug, Default)]
pub struct Call {
    pub name: String,
    pub parameters: Vec<Parameter>,
    /// What it returns; none for 0 or the number that it is refused with.
    pub returns: Option<Number>,
    /// In brief, what it gives.
    pub summary: String,
    pub details: Vec<String>,
    /// The numbers and conditions in the order of the tests.
    pub refusals: Vec<(u8, String)>,
}

#[derive(Clone, Debug)]
pub struct Parameter {
    pub name: String,
    pub kind: Kind,
    pub meaning: String,
    /// Whether the call itself says what it means.
    pub own: bool,
}

#[derive(Clone, Copy, Debug, PartialEq, Eq)]
pub enum Kind {
    Shape,
    Flavor,
    Plain(Number),
    Slice(Number),
    Out(Number),
    To(Number),
    ToShape,
    ToFlavor,
}

#[derive(Clone, Copy, Debug, PartialEq, Eq)]
pub enum Number {
    U8,
    U16,
    U32,
    U64,
    Usize,
    I8,
    I32,
    F64,
}

/// Each number's type in Rust and Rattle, and in C.
const NUMBERS: [(Number, &str, &str); 8] = [
    (Number::U8, "u8", "uint8_t"),
    (Number::U16, "u16", "uint16_t"),
    (Number::U32, "u32", "uint32_t"),
    (Number::U64, "u64", "uint64_t"),
    (Number::Usize, "usize", "size_t"),
    (Number::I8, "i8", "int8_t"),
    (Number::I32, "i32", "int32_t"),
    (Number::F64, "f64", "double"),
];

impl Number {
    pub fn named(name: &str) -> Option<Number> {
        NUMBERS.iter().find(|(_, rust, _)| *rust == name).map(|(number, _, _)| *number)
    }

    fn names(self) -> (&'static str, &'static str) {
        NUMBERS.iter().find(|(number, _, _)| *number == self).map_or(("", ""), |&(_, rust, c)| (rust, c))
    }

    /// The type in Rust and Rattle.
    pub fn rust(self) -> &'static str {
        self.names().0
    }

    /// The type in C.
    pub fn c(self) -> &'static str {
        self.names().1
    }
}

impl Kind {
    /// The type that a text of the table names.
    pub fn named(text: &str) -> Option<Kind> {
        let slice = |text: &str| Number::named(text.strip_prefix('[')?.strip_suffix(']')?);
        match text {
            "shape" => Some(Kind::Shape),
            "flavor" => Some(Kind::Flavor),
            "to shape" => Some(Kind::ToShape),
            "to flavor" => Some(Kind::ToFlavor),
            _ if text.starts_with("out ") => slice(&text[4..]).map(Kind::Out),
            _ if text.starts_with("to ") => Number::named(&text[3..]).map(Kind::To),
            _ if text.starts_with('[') => slice(text).map(Kind::Slice),
            _ => Number::named(text).map(Kind::Plain),
        }
    }

    /// Whether a part of the answer is reported in it.
    pub fn reports(self) -> bool {
        matches!(self, Kind::To(_) | Kind::ToShape | Kind::ToFlavor)
    }

    /// Whether it is a pointer and a count.
    pub fn counted(self) -> bool {
        matches!(self, Kind::Slice(_) | Kind::Out(_))
    }
}

impl Version {
    /// major x 10000 + minor x 100 + patch.
    pub fn number(self) -> u32 {
        self.major * 10000 + self.minor * 100 + self.patch
    }
}

impl Call {
    /// How many parameters it has in C.
    pub fn width(&self) -> usize {
        self.parameters.iter().map(|parameter| 1 + usize::from(parameter.kind.counted())).sum()
    }

    /// Those of its parameters in which it reports a part of the answer.
    pub fn reported(&self) -> impl Iterator<Item = &Parameter> {
        self.parameters.iter().filter(|parameter| parameter.kind.reports())
    }
}

impl Table {
    pub fn calls(&self) -> impl Iterator<Item = &Call> {
        self.groups.iter().flat_map(|group| &group.calls)
    }

    /// Every constant that the header defines, its value beside it.
    pub fn values(&self) -> Vec<(&str, u64)> {
        let refusals = self.refusals.iter().map(|refusal| (refusal.name.as_str(), u64::from(refusal.number)));
        let others = self.constants.iter().flat_map(|part| &part.list);
        refusals.chain(others.map(|constant| (constant.name.as_str(), constant.value))).collect()
    }
}
