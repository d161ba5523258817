//! What is lent to a call beside what goes in.

/// Every call but those of `Nothing` returns the number of its refusal, or 0.
#[derive(Clone, Copy, PartialEq)]
pub enum Lends {
    /// Nothing: what is returned is the answer, and no call of these is ever refused.
    Nothing,
    /// Six bytes for a flavor.
    Flavor,
    /// Six bytes for a shape, and an output.
    Value,
    /// Both for each of two values.
    Values,
    /// Those of a value, and the number of pairs.
    Product,
    /// Those of a value, and a number.
    Taken,
    Number,
    Test,
    Yes,
    Order,
    Count,
    /// Where a part starts, and its count.
    Start,
    /// A count, and an output of numbers, of bytes or of patterns.
    List,
    Text,
    Patterns,
    /// A count, and two outputs of masks.
    Masks,
    /// Two counts, an output of shapes and one of patterns.
    Sheet,
    /// Six bytes for a shape, and where it starts.
    Place,
    /// Those of a value, a count of steps, and the number of a refusal, which stands where a right value's shape would.
    Pose,
}

/// How many lists of references there are: of bytes, those of a right value's shape, counts, pairs, orders and numbers.
pub const REFERENCES: usize = 6;

impl Lends {
    /// What the call returns is the number of its refusal, or 0.
    pub fn returns_refusal(self) -> bool {
        self != Lends::Nothing
    }
    /// How many references of each list are lent.
    pub fn references(self) -> [usize; REFERENCES] {
        use Lends::*;
        match self {
            Nothing => [0, 0, 0, 0, 0, 0],
            Flavor | Value => [6, 0, 0, 0, 0, 0],
            Values => [6, 6, 0, 0, 0, 0],
            Product => [6, 0, 0, 1, 0, 0],
            Taken => [6, 0, 0, 0, 0, 1],
            Number => [0, 0, 0, 0, 0, 1],
            Test => [1, 0, 0, 0, 0, 2],
            Yes => [1, 0, 0, 0, 0, 0],
            Order => [0, 0, 0, 0, 1, 0],
            Count | List | Text | Patterns | Masks => [0, 0, 1, 0, 0, 0],
            Start | Sheet => [0, 0, 2, 0, 0, 0],
            Place => [6, 0, 1, 0, 0, 0],
            Pose => [6, 1, 1, 0, 0, 0],
        }
    }
}
