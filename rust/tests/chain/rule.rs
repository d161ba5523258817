//! The rules themselves for short chains: that by sums worked out in exact fractions, that by norms in f64. Each distance is the smaller of both.
use crate::draw::Draw;
use crate::exact::{Int, UNIT, fineness, masks, sums_of};
use crate::lengths::{self, Factor, Fault, lengths, null};
use crate::real::{Gap, Op, Real};
use crate::twin::by;
use thresholm::bound::Chain;
use thresholm::{Flavor, Multivector, Shape};

/// A chain beside the distances that the rules give, held as numbers of its value's shape, and their norms.
#[derive(Clone)]
struct Ruled {
    chain: Chain,
    distances: Real,
    norms: Vec<f64>,
    /// No distance that it was made of was smaller by norms: the fractions are exact.
    summed: bool,
    fault: Fault,
}

impl Ruled {
    fn given(value: Multivector) -> Ruled {
        let none = vec![Int::default(); value.numbers().len()];
        let distances = Real { shape: value.shape(), unit: 0, numbers: none };
        let norms = vec![0.0; null(value.shape()) + 1];
        Ruled { chain: Chain::new(value), distances, norms, summed: true, fault: Fault::None }
    }

    fn reverse(&self) -> Ruled {
        Ruled { chain: self.chain.reverse(), ..self.clone() }
    }

    fn set_dims(&self, dims: u8) -> Ruled {
        let chain = self.chain.set_dims(dims).expect("few dimensions");
        let distances = self.distances.set_dims(dims);
        Ruled { chain, norms: self.norms_at(distances.shape, &distances), distances, ..self.clone() }
    }

    /// The norms where the distances have moved to another shape.
    fn norms_at(&self, shape: Shape, distances: &Real) -> Vec<f64> {
        let all = self.norms.iter().map(|norm| norm * norm).sum::<f64>().sqrt();
        let same = shape.flavor() == self.distances.shape.flavor();
        let known = |block: usize| if same { self.norms.get(block).copied().unwrap_or(0.0) } else { all };
        let fresh = lengths(shape, &sizes(distances)).into_iter().enumerate();
        fresh.map(|(block, norm)| norm.min(known(block))).collect()
    }

    /// None where it opens.
    fn by(&self, op: Op, right: &Ruled) -> Option<Ruled> {
        let chain = by(&self.chain, op, &right.chain).expect("few dimensions");
        chain.distances()?;
        let [(a, da), (b, db)] = conformed(self, right, chain.value().dims());
        let own = own(op, &a, &b, right.chain.value(), chain.value());
        let factors = [(self, &a, &da), (right, &b, &db)].map(|(ruled, value, distances)| Factor {
            numbers: by_mask(value),
            distances: sizes(distances),
            norms: ruled.norms_at(a.shape(), distances),
        });
        let summed = self.summed && right.summed;
        let distances = by_sums(op, [(&a, da), (&b, db)], &own);
        let ruled = Ruled { chain, distances, norms: vec![], summed, fault: self.fault };
        Some(ruled.met(op, &factors, own))
    }

    /// The same with the norms of its last step, and each distance the smaller of both.
    fn met(mut self, op: Op, [left, right]: &[Factor; 2], own: Vec<Int>) -> Ruled {
        let shape = self.distances.shape;
        if matches!(op, Op::Times | Op::General) {
            let own = lengths(shape, &sizes(&Real { shape, unit: UNIT + 53, numbers: own }));
            self.norms = lengths::of_product(shape, left, right, own, self.fault);
            for (mask, size) in sizes(&self.distances).into_iter().enumerate() {
                let norm = self.norms[mask & null(shape)];
                if norm < size * (1.0 - 1e-12) {
                    self.distances.numbers[mask] = Int::of_number(norm, self.distances.unit as i32);
                    self.summed = false;
                }
            }
        }
        let fresh = lengths(shape, &sizes(&self.distances));
        self.norms.resize(fresh.len(), f64::INFINITY);
        self.norms.iter_mut().zip(fresh).for_each(|(norm, fresh)| *norm = norm.min(fresh));
        self
    }

    /// Each distance is the least number that is not below the exact one, or one that is next to nothing above it. Where a norm is in it: near to it.
    fn holds(&self) -> bool {
        let exact = gaps(&self.distances);
        let given = self.chain.distances().expect("it is not open");
        let near = |(gap, size): (&Gap, f64)| {
            let nothing = Int::of(1, gap.unit - gap.unit.min(2100));
            let above = Gap { size: gap.size.plus(&nothing), unit: gap.unit };
            let least = gap.to_f64();
            (gap.size.is_zero() == (size == 0.0))
                && match self.summed {
                    true => gap.is_within(size) && (size == 0.0 || !above.is_within(size.next_down())),
                    false => (size - least).abs() <= least * 1e-9,
                }
        };
        exact.len() == given.len() && exact.iter().zip(given).all(|(gap, size)| near((gap, size.to_f64())))
    }
}

/// Sizes in the order of places.
fn gaps(sizes: &Real) -> Vec<Gap> {
    sizes.gaps(&Multivector::new(sizes.shape, vec![0.0; sizes.numbers.len()]).expect("zeros"))
}

/// Sizes by their masks, as f64.
fn sizes(sizes: &Real) -> Vec<f64> {
    let mut all = vec![0.0; sizes.numbers.len()];
    for (mask, gap) in masks(sizes.shape.dims()).into_iter().zip(gaps(sizes)) {
        all[mask] = if gap.size.is_zero() { 0.0 } else { gap.to_f64() };
    }
    all
}

/// The numbers of a value by their masks.
fn by_mask(value: &Multivector) -> Vec<f64> {
    let mut all = vec![0.0; value.numbers().len()];
    masks(value.dims()).into_iter().zip(value.numbers()).for_each(|(mask, x)| all[mask] = *x);
    all
}

/// The distances of a product by the rule by sums, given its own bounds.
fn by_sums(op: Op, [(a, da), (b, db)]: [(&Multivector, Real); 2], own: &[Int]) -> Real {
    let metrics = op.metrics(a.shape());
    let [(x, dx), (y, dy)] = [(Real::of(a), da), (Real::of(b), db)].map(|(number, distance)| {
        let unit = number.unit.max(distance.unit);
        (number.in_units(unit), distance.in_units(unit))
    });
    let unit = (x.unit + y.unit).max(UNIT + 53);
    let count = x.numbers.len();
    let distance = |mask: usize| {
        let mut sum = Int::default();
        for i in (0..count).filter(|i| metrics[i * count + (i ^ mask)] != 0) {
            let [[a, da], [b, db]] = [[&x.numbers[i], &dx.numbers[i]], [&y.numbers[i ^ mask], &dy.numbers[i ^ mask]]];
            for (one, other) in [(da, b), (a, db), (da, db)] {
                sum = sum.plus(&one.times(other).size());
            }
        }
        let own = own[mask].times(&Int::of(1, unit - (UNIT + 53)));
        sum.times(&Int::of(1, unit - (x.unit + y.unit))).plus(&own)
    };
    Real { shape: a.shape(), unit, numbers: (0..count).map(distance).collect() }
}

/// Both factors as computed, at the dimensions of their product, and their distances.
fn conformed(left: &Ruled, right: &Ruled, dims: u8) -> [(Multivector, Real); 2] {
    let [a, b] = [left, right].map(|ruled| ruled.chain.value());
    if let Some((a, b)) = a.conform(b).ok().filter(|(a, _)| a.dims() == dims) {
        let [da, db] =
            [left.distances.conformed(right.distances.shape), right.distances.conformed(left.distances.shape)];
        return [(a, da), (b, db)];
    }
    // The right one is a scalar that is not promoted.
    let scalar = |shape: Shape| Shape::new(0, shape.flavor());
    let da = left.distances.conformed(scalar(b.shape())).set_dims(dims);
    [
        (a.conform_to(b.shape()).expect("few dimensions"), da),
        (b.set_dims(dims).expect("few"), right.distances.set_dims(dims)),
    ]
}

/// Demand 3's bound for a step, by mask, in units of 2^-(UNIT + 53). By a scalar `*` has one pair a coefficient.
fn own(op: Op, a: &Multivector, b: &Multivector, right: &Multivector, product: &Multivector) -> Vec<Int> {
    let shape = if op == Op::Outer { a.shape().with_flavor(Flavor::NULL) } else { a.shape() };
    let scalar = op == Op::Times && right.numbers().iter().skip(1).all(|x| *x == 0.0);
    let metrics = op.metrics(a.shape());
    let count = a.numbers().len();
    let sums = sums_of(shape, a.numbers(), b.numbers(), |i, j| metrics[i * count + j] != 0 && (j == 0 || !scalar));
    let [p, q] = [a, b].map(|value| value.numbers().iter().map(|x| fineness(*x)).max().unwrap_or(0));
    let mut own = vec![Int::default(); count];
    for ((mask, sum), x) in masks(a.dims()).into_iter().zip(sums).zip(product.numbers()) {
        assert!(sum.off(*x).compare_sizes(&sum.limit()).is_le() && (!scalar || sum.pairs == 1));
        let on_grid = p + q <= 46 && sum.total.compare_sizes(&Int::of(1, UNIT + 53 - p - q)).is_le();
        if !on_grid && !sum.total.is_zero() {
            own[mask] = sum.limit();
        }
    }
    own
}

/// A value of any of the kinds that steps tell apart: dense, on a grid, a scalar, and with zeros.
fn value(draw: &mut Draw) -> Multivector {
    let shape = Shape::new(draw.below(5) as u8, draw.flavor());
    let scalar = draw.one_in(3);
    let dense = draw.sized(shape, 2.0, scalar);
    let shift = draw.of(&[0, 0, 4, 12]);
    let number = |x: &f64| match shift {
        0 => *x,
        _ => (x * f64::from(1 << shift)).round() / f64::from(1 << shift),
    };
    Multivector::new(shape, dense.numbers().iter().map(number).collect::<Vec<_>>()).expect("as many as there were")
}

/// A chain of 14 steps, made of a few values of one shape: unit moves, or dense numbers. None where a distance is not what the rules give, else how
/// many are smaller by norms.
fn long(draw: &mut Draw, fault: Fault) -> Option<usize> {
    let shape =
        Shape::new(draw.of(&[2, 3, 3, 4]), draw.of(&[Flavor::Vanilla, Flavor::Cl(0, 1, 0), Flavor::Cl(0, 1, 2)]));
    let (moves, dims) = (draw.one_in(2), draw.of(&[3, 4]));
    let mut value = || match moves {
        true => draw.unit_move(dims, 6.0),
        false => draw.sized(shape, 1.5, false),
    };
    let values = [value(), value(), value()].map(|value| Ruled { fault, ..Ruled::given(value) });
    let (mut pose, mut seen) = (values[0].clone(), 0);
    for step in 0..14 {
        let given = &values[draw.below(3) as usize];
        pose = match (step, draw.below(8)) {
            (5, 0..3) => pose.set_dims(pose.chain.value().dims() + 1),
            (7, 0..3) => pose.by(Op::General, &pose)?,
            (10, 0..3) => pose.by(draw.of(&Op::ALL), given)?,
            (_, 0) => pose.reverse(),
            (_, 1..4) => given.by(Op::Times, &pose)?,
            _ => pose.by(Op::Times, given)?,
        };
        if !pose.holds() {
            return None;
        }
        seen += usize::from(!pose.summed);
    }
    Some(seen)
}

#[test]
fn where_norms_are_smaller_they_are_taken() {
    let all = |fault: Fault| (0..60).map(move |seed| long(&mut Draw::new(seed), fault));
    let smaller: Option<Vec<usize>> = all(Fault::None).collect();
    let smaller = smaller.expect("each distance is what the rules give");
    assert!(smaller.iter().filter(|steps| **steps > 3).count() > 30, "{smaller:?}");
    for fault in [Fault::Sign, Fault::Null, Fault::One] {
        assert!(all(fault).any(|seen| seen.is_none()), "{fault:?} is not found");
    }
}

/// Chains of a few steps, each a factor of the next or of a later one.
#[test]
fn each_distance_is_what_the_rule_gives() {
    let (mut draw, mut seen, mut opened) = (Draw::new(77), 0, 0);
    for _ in 0..150 {
        let mut made = vec![Ruled::given(value(&mut draw)), Ruled::given(value(&mut draw))];
        for _ in 0..5 {
            let [one, other] = [0, 1].map(|_| made[draw.below(made.len() as u64) as usize].clone());
            let next = match draw.below(10) {
                0 => Some(one.reverse()),
                _ if one.chain.value().dims() > 4 => Some(one.set_dims(draw.of(&[1, 3, 4]))),
                1 => Some(one.set_dims(draw.below(5) as u8)),
                2..6 => one.by(Op::Times, &other),
                _ => one.by(draw.of(&Op::ALL), &other),
            };
            let Some(next) = next else {
                opened += 1;
                continue;
            };
            assert!(next.holds(), "{:?}", next.chain);
            seen += next.distances.numbers.iter().filter(|size| !size.is_zero()).count();
            made.push(next);
        }
    }
    assert!(seen > 1000 && opened < 100, "{seen} distances, {opened} opened");
}

#[test]
fn another_rule_is_told_apart() {
    let [x, y] = [[0.1, 0.3, -0.7, 0.9], [0.2, 1.1, 0.6, -0.4]]
        .map(|numbers| Ruled::given(Multivector::new(Shape::new(2, Flavor::Vanilla), numbers).expect("four")));
    let one = x.by(Op::Times, &y).expect("it is closed");
    let two = one.by(Op::Times, &one).expect("it is closed");
    assert!(one.holds() && two.holds());
    // The last step's own bound alone, without what the factors bring; and the step before.
    let last = Ruled::given(one.chain.value().clone());
    let own = last.by(Op::Times, &last).expect("it is closed");
    for distances in [own.distances, one.distances.clone()] {
        assert!(!Ruled { distances, ..two.clone() }.holds());
    }
    // The product of both distances, which is some 1e-28 of 1e-14, is seen too.
    let without = one.distances.in_units(two.distances.unit / 2);
    let less = |mask: usize, size: &Int| {
        let both = (0..4).map(|i: usize| without.numbers[i].times(&without.numbers[i ^ mask]));
        size.plus(&both.fold(Int::default(), |sum, next| sum.plus(&next)).negated())
    };
    let numbers = two.distances.numbers.iter().enumerate().map(|(mask, size)| less(mask, size)).collect();
    assert!(!Ruled { distances: Real { numbers, ..two.distances.clone() }, ..two }.holds());
}
