//! Kinds of random chains.
use crate::draw::{Draw, at, rounded};
use crate::real::Op;
use crate::twin::Twin;
use thresholm::{Flavor, Multivector, Shape};

/// What a chain is made of.
#[derive(Clone, Copy, Debug, PartialEq, Eq, PartialOrd, Ord)]
pub enum Kind {
    /// A point and unit moves in 3 PGA or 4 PGA, turns by small angles and slides: `*` on either side, and sandwiches.
    Pans,
    /// The same by any angles.
    Turns,
    /// Dense numbers, all of one shape.
    Dense,
    /// Multiples of 2^-12, exact at first; or signed blades, exact to the end.
    Grid,
    /// Values of several flavors and dimensions, the six products, reverses and changes of dimensions.
    Mixed,
    /// Four such chains multiplied together: both factors have distances.
    Tree,
}

impl Kind {
    pub const ALL: [Kind; 6] = [Kind::Pans, Kind::Turns, Kind::Dense, Kind::Grid, Kind::Mixed, Kind::Tree];

    /// A chain of some steps, the last a product; `seen` is called after each. None where it opens.
    pub fn chain(self, draw: &mut Draw, steps: usize, seen: &mut dyn FnMut(&Twin)) -> Option<Twin> {
        if self != Kind::Tree {
            let source = Source::new(self, draw);
            let start = Twin::given(source.start(draw));
            return source.lengthened(draw, start, steps, seen);
        }
        let source = Source::new(draw.of(&[Kind::Pans, Kind::Turns, Kind::Dense, Kind::Mixed]), draw);
        let mut part = || {
            let start = Twin::given(source.value(draw));
            source.lengthened(draw, start, (steps - 3) / 4, seen)
        };
        let [one, other] = [part()?.by(Op::Times, &part()?)?, part()?.by(Op::Times, &part()?)?];
        let all = one.by(Op::Times, &other)?;
        source.lengthened(draw, all, steps, seen)
    }
}

/// What a chain draws its values from.
struct Source {
    kind: Kind,
    /// One value over and over, a few, or many.
    values: Vec<Multivector>,
}

impl Source {
    fn new(kind: Kind, draw: &mut Draw) -> Source {
        let shape = match kind {
            Kind::Pans | Kind::Turns => Shape::new(draw.of(&[3, 4]), Flavor::Projective),
            _ => Shape::new(draw.below(5) as u8, draw.flavor()),
        };
        let (angle, norm) = (draw.of(&[0.02, 0.2]), draw.of(&[0.98, 1.3, 1.8]));
        let (blades, count) = (draw.one_in(2), draw.of(&[1, 4, 40]));
        let value = |_| match kind {
            Kind::Pans => draw.unit_move(shape.dims(), angle),
            Kind::Turns => draw.unit_move(shape.dims(), 6.0),
            Kind::Grid if blades => at(shape, &[(draw.below(1 << shape.dims()) as usize, draw.of(&[1.0, -1.0]))]),
            Kind::Grid => rounded(&draw.sized(shape, norm, false)),
            Kind::Mixed => {
                let shape = Shape::new(draw.below(5) as u8, draw.flavor());
                let scalar = draw.one_in(5);
                draw.sized(shape, 1.8, scalar)
            }
            _ => draw.sized(shape, norm, false),
        };
        Source { kind, values: (0..count).map(value).collect() }
    }

    fn value(&self, draw: &mut Draw) -> Multivector {
        self.values[draw.below(self.values.len() as u64) as usize].clone()
    }

    /// The value that a chain starts from: a point for moves.
    fn start(&self, draw: &mut Draw) -> Multivector {
        let (value, mut number) = (self.value(draw), || draw.number(9.0));
        match (self.kind, value.dims()) {
            (Kind::Pans | Kind::Turns, 3) => at(value.shape(), &[(0b110, 1.0), (0b101, number()), (0b011, number())]),
            (Kind::Pans | Kind::Turns, _) => {
                let places = [(0b1101, number()), (0b1011, number()), (0b0111, number())];
                at(value.shape(), &[&[(0b1110, 1.0)], &places[..]].concat())
            }
            _ => value,
        }
    }

    /// A pose after so many steps, the last of them a product.
    fn lengthened(&self, draw: &mut Draw, start: Twin, steps: usize, seen: &mut dyn FnMut(&Twin)) -> Option<Twin> {
        let mut pose = start;
        while pose.chain.steps() < steps {
            pose = self.next(draw, &pose, steps - pose.chain.steps())?;
            seen(&pose);
        }
        Some(pose)
    }

    /// One step, or the three of a sandwich.
    fn next(&self, draw: &mut Draw, pose: &Twin, left: usize) -> Option<Twin> {
        let given = Twin::given(self.value(draw));
        let dims = pose.chain.value().dims();
        match (draw.below(12), self.kind) {
            (0, Kind::Dense | Kind::Mixed) if left > 1 => Some(pose.reverse()),
            (_, Kind::Mixed) if left > 1 && dims > 4 => Some(pose.set_dims(draw.of(&[2, 3, 4]))),
            (1, Kind::Mixed) if left > 1 => Some(pose.set_dims(draw.of(&[2, 3, 4]))),
            (2, Kind::Mixed) if left > 1 => pose.by(draw.of(&Op::ALL), &given),
            (0..4, Kind::Pans | Kind::Turns) if left > 2 => given.by(Op::Times, pose)?.by(Op::Times, &given.reverse()),
            (4..8, _) => given.by(Op::Times, pose),
            _ => pose.by(Op::Times, &given),
        }
    }
}
