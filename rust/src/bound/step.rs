//! One step of a chain: what is guaranteed of it by itself, and what the distances of its factors bring.
use super::guarantee::{Bound, Coefficient, Guarantee};
use super::norms::{self, Measured, Norms};
use super::opened::Opening;
use super::pairs::{Kind, Pairs};
use super::size::{Digits, Size};
use super::{of_conformed, of_scaled};
use crate::error::Error;
use crate::multivector::Multivector;
use crate::shape::Shape;
use std::borrow::Cow;

/// How far the numbers of a value lie from the exact ones at most.
#[derive(Clone, Debug)]
pub struct Distances {
    /// Each by itself.
    pub each: Vec<Size>,
    /// Those of a block together.
    norms: Norms,
}

impl Distances {
    /// Those of a value that is exact.
    pub fn none(value: &Multivector) -> Distances {
        Distances { each: vec![Size::default(); value.numbers().len()], norms: Norms::none(value.shape()) }
    }

    /// Those of a shape, given each by itself.
    pub fn new(shape: Shape, each: Vec<Size>) -> Result<Distances, Error> {
        let norms = Norms::of(shape, &each)?;
        Ok(Distances { each, norms })
    }
}

/// The distances after a step, or why there are none.
pub type Outcome = Result<Distances, Opening>;

/// A factor: its numbers and their distances.
pub struct Side<'c> {
    shape: Shape,
    numbers: Cow<'c, [f64]>,
    distances: Cow<'c, Distances>,
}

impl<'c> Side<'c> {
    pub fn new(value: &'c Multivector, distances: &'c Distances) -> Side<'c> {
        Side { shape: value.shape(), numbers: value.numbers().into(), distances: Cow::Borrowed(distances) }
    }

    /// The factor as one of a product of a shape, whose blocks need not be its own.
    fn measured(&self, shape: Shape) -> Result<Measured<'_>, Error> {
        let Distances { each, norms } = &*self.distances;
        let norms = if self.shape == shape { norms.clone() } else { norms.moved(self.shape, shape, each)? };
        Ok(Measured { numbers: &self.numbers, distances: each, norms })
    }
}

/// After one of the five products, whose value is given.
pub fn of_product(kind: Kind, left: Side<'_>, right: Side<'_>, value: &Multivector) -> Result<Outcome, Error> {
    let [left, right] = conformed(left, right)?;
    let bound = of_conformed(kind, left.shape, &left.numbers, &right.numbers)?;
    added(&bound, kind, &left, &right, value)
}

/// After `*` by a value that is a scalar as computed. What its distances at other places bring is that of the general product, if they have places in
/// the result.
pub fn of_scaling(left: Side<'_>, right: Side<'_>, value: &Multivector) -> Result<Outcome, Error> {
    let [left, right] = if left.shape.met_dims(right.shape) == value.dims() {
        conformed(left, right)?
    } else if right.distances.each.iter().skip(1).all(Size::is_zero) {
        let grown = changed(left, |left| left.conform_to(right.shape))?;
        [grown, scalar(&right, value)?]
    } else {
        return Ok(Err(Opening::Scalar));
    };
    let bound = of_scaled(value.shape(), &left.numbers, &right.numbers)?;
    added(&bound, Kind::All, &left, &right, value)
}

/// After a change of shape.
pub fn of_change(
    shape: Shape,
    distances: &Distances,
    change: impl Fn(&Multivector) -> Result<Multivector, Error>,
) -> Result<Distances, Error> {
    let tags = change(&tags(shape)?)?;
    let each = brought(&tags, &distances.each);
    let norms = distances.norms.moved(shape, tags.shape(), &each)?;
    Ok(Distances { each, norms })
}

/// A value whose numbers say where they stand, from 1 on.
fn tags(shape: Shape) -> Result<Multivector, Error> {
    let places = (1..=shape.blade_count()?).map(|place| place as f64);
    Multivector::new(shape, places.collect::<Vec<_>>())
}

/// The distances where the numbers of changed tags stand: 0 at a new place.
fn brought(tags: &Multivector, distances: &[Size]) -> Vec<Size> {
    let from = |tag: &f64| distances.get((tag.abs() as usize).wrapping_sub(1)).cloned().unwrap_or_default();
    tags.numbers().iter().map(from).collect()
}

/// A factor whose shape is changed.
fn changed<'c>(side: Side<'c>, change: impl Fn(&Multivector) -> Result<Multivector, Error>) -> Result<Side<'c>, Error> {
    let value = change(&Multivector::new(side.shape, &*side.numbers)?)?;
    let distances = of_change(side.shape, &side.distances, change)?;
    Ok(Side { shape: value.shape(), numbers: value.into_numbers().into(), distances: Cow::Owned(distances) })
}

/// Both factors at the shapes that they meet in.
fn conformed<'c>(left: Side<'c>, right: Side<'c>) -> Result<[Side<'c>; 2], Error> {
    if left.shape == right.shape {
        return Ok([left, right]);
    }
    let [any_left, any_right] = [tags(left.shape)?, tags(right.shape)?];
    let left = changed(left, |left| left.conform(&any_right).map(|both| both.0))?;
    let right = changed(right, |right| any_left.conform(right).map(|both| both.1))?;
    Ok([left, right])
}

/// A scalar with no distance but that of its number, in the shape of a value.
fn scalar<'c>(side: &Side<'_>, value: &Multivector) -> Result<Side<'c>, Error> {
    let mut numbers = vec![0.0; value.numbers().len()];
    let mut each = vec![Size::default(); numbers.len()];
    numbers[..1].copy_from_slice(&side.numbers[..1]);
    each[..1].clone_from_slice(&side.distances.each[..1]);
    let distances = Cow::Owned(Distances::new(value.shape(), each)?);
    Ok(Side { shape: value.shape(), numbers: numbers.into(), distances })
}

/// The step's own bound and what the factors bring: by sums, and for a general product by norms where that is less.
fn added(bound: &Bound, kind: Kind, left: &Side<'_>, right: &Side<'_>, value: &Multivector) -> Result<Outcome, Error> {
    if bound.coefficients().iter().any(|coefficient| *coefficient.guarantee() == Guarantee::Open) {
        // Then a factor has a number that is outside.
        let why = match bound.outside() {
            [Some(left), _] => Opening::Left(left),
            [None, right] => right.map_or(Opening::Scalar, Opening::Right),
        };
        return Ok(Err(why));
    }
    let all = bound.coefficients().iter().zip(value.numbers());
    let own: Vec<Size> = all.map(|(coefficient, number)| own(coefficient, *number)).collect();
    let mut each: Vec<Size> = own.iter().zip(carried(kind, left, right)?).map(|(own, more)| own.plus(&more)).collect();
    let shape = value.shape();
    debug_assert_eq!(shape, left.shape);
    if kind != Kind::All {
        return Distances::new(shape, each).map(Ok);
    }
    let mut norms = norms::of_product(shape, &left.measured(shape)?, &right.measured(shape)?, &own)?;
    norms.meet(shape, &mut each)?;
    Ok(Ok(Distances { each, norms }))
}

/// How far a number of a step lies at most from the exact sum. Where that is a sum of zeros it is seen whether the number is 0 too.
fn own(coefficient: &Coefficient, number: f64) -> Size {
    match coefficient.guarantee() {
        Guarantee::Within(_) if number == 0.0 && coefficient.sizes().is_some_and(Size::is_zero) => Size::default(),
        Guarantee::Within(limit) => limit.clone(),
        _ => Size::default(),
    }
}

/// What the distances of two conformed factors bring to each coefficient: |da||b| + |a||db| + |da||db| over its contributing pairs.
fn carried(kind: Kind, left: &Side<'_>, right: &Side<'_>) -> Result<Vec<Size>, Error> {
    let (order, pairs) = (left.shape.order()?, Pairs::new(kind, left.shape));
    let [left, right] = [left, right].map(|side| {
        let by_mask = order.places().iter().map(|place| usize::from(*place));
        by_mask.map(|place| (Digits::of(side.numbers[place]), &side.distances.each[place])).collect::<Vec<_>>()
    });
    let coefficient = |mask: &u16| {
        let mask = usize::from(*mask);
        let mut sum = Size::default();
        for a in pairs.of(mask) {
            let ((x, dx), (y, dy)) = (left[a], right[a ^ mask]);
            sum.add_scaled(dx, y);
            sum.add_scaled(dy, x);
            sum.add_distances(dx, dy);
        }
        sum
    };
    Ok(order.masks().iter().map(coefficient).collect())
}
