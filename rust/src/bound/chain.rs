//! A whole chain of steps: its pose, and how far each number of it lies at most from that of the exact product.
use super::guarantee::Outside;
use super::opened::{Opened, Opening};
use super::pairs::Kind;
use super::size::Size;
use super::step::{self, Distances, Outcome, Side};
use crate::error::Error;
use crate::multivector::Multivector;
use crate::values::ScalarTest;

/// A value with how far each of its numbers lies at most from that of the exact product of the whole chain of steps that made it.
///
/// A step is `*`, one of the five products, a reverse or a change of dimensions. The exact product is that of the given numbers as they stand, with
/// nothing rounded or snapped; its shapes are those of the values as computed. A distance is the smaller of what two rules give, one by sums of sizes
/// and one by lengths, which turns keep. docs/ACCURACY.md has both.
///
/// ```
/// use thresholm::bound::Chain;
/// use thresholm::{Flavor, Multivector};
///
/// let turn = Chain::new(Multivector::blades_left(2, &[0.8, 0.6], Flavor::Vanilla)?);
/// let twice = turn.times(&turn)?;
/// let back = twice.times(&turn.reverse())?;
/// assert_eq!((turn.steps(), twice.steps(), back.steps()), (0, 1, 3));
/// assert_eq!(twice.largest().map(|size| size.to_string()).as_deref(), Some("1.48e-14"));
/// assert_eq!(back.largest().map(|size| size.to_string()).as_deref(), Some("3.54e-14"));
/// # Ok::<(), thresholm::Error>(())
/// ```
#[derive(Clone, Debug)]
pub struct Chain {
    value: Multivector,
    steps: usize,
    distances: Result<Distances, Opened>,
}

/// A product of two chains by the call of its name.
macro_rules! product {
    ($name:ident, $kind:ident) => {
        #[doc = concat!("[`Multivector::", stringify!($name), "`] of both, refused as that is.")]
        pub fn $name(&self, right: &Chain) -> Result<Chain, Error> {
            let value = self.value.$name(&right.value)?.value;
            self.joined(right, value, |left, right, value| step::of_product(Kind::$kind, left, right, value))
        }
    };
}

impl Chain {
    /// A given value: no steps, and each number is at distance 0 from itself. Open where a number is not finite.
    #[must_use]
    pub fn new(value: Multivector) -> Chain {
        let place = value.numbers().iter().position(|x| !x.is_finite());
        let outside = place.map(|place| Outside { place, number: value.numbers()[place] });
        let mut chain = Chain::entering(value);
        if let Some(outside) = outside {
            chain.distances = Err(Opened { step: 0, why: Opening::Given(outside) });
        }
        chain
    }

    /// A given value for a step, whose numbers are first looked at there.
    pub(crate) fn entering(value: Multivector) -> Chain {
        let distances = Distances::none(&value);
        Chain { value, steps: 0, distances: Ok(distances) }
    }

    /// The value, as computed.
    #[must_use]
    pub fn value(&self) -> &Multivector {
        &self.value
    }

    /// The value, taken out.
    #[must_use]
    pub fn into_value(self) -> Multivector {
        self.value
    }

    /// How many steps made it: those of both factors, and the last.
    #[must_use]
    pub fn steps(&self) -> usize {
        self.steps
    }

    /// How far each number lies at most from that of the exact product, in the order of the value's numbers. None where the chain is open.
    #[must_use]
    pub fn distances(&self) -> Option<&[Size]> {
        self.distances.as_ref().ok().map(|distances| &distances.each[..])
    }

    /// Where it opened, if it did: nothing is guaranteed from there on.
    #[must_use]
    pub fn opened(&self) -> Option<&Opened> {
        self.distances.as_ref().err()
    }

    /// The largest of the distances. None where the chain is open.
    #[must_use]
    pub fn largest(&self) -> Option<&Size> {
        self.distances()?.iter().max()
    }

    /// Whether the value is the exact product: every distance is 0.
    #[must_use]
    pub fn is_exact(&self) -> bool {
        self.distances().is_some_and(|distances| distances.iter().all(Size::is_zero))
    }

    /// [`Multivector::times`] of both, which is `*`, refused as that is.
    pub fn times(&self, right: &Chain) -> Result<Chain, Error> {
        let value = self.value.times(&right.value)?;
        match right.value.scalar_test() {
            ScalarTest::Scalar(_) => self.joined(right, value, step::of_scaling),
            _ => self.joined(right, value, |left, right, value| step::of_product(Kind::All, left, right, value)),
        }
    }

    product!(general_product, All);
    product!(left_contraction, Left);
    product!(right_contraction, Right);
    product!(inner_product, Inner);
    product!(outer_product, Outer);

    /// [`Multivector::reverse`]: it rounds nothing.
    #[must_use]
    pub fn reverse(&self) -> Chain {
        self.moved(self.value.reverse(), self.distances.clone())
    }

    /// [`Multivector::set_dims`], refused as that is: it rounds nothing, and the distances of numbers that it drops are dropped.
    pub fn set_dims(&self, new_dims: u8) -> Result<Chain, Error> {
        let value = self.value.set_dims(new_dims)?;
        let distances = match &self.distances {
            Ok(distances) => Ok(step::of_change(self.value.shape(), distances, |tags| tags.set_dims(new_dims))?),
            Err(opened) => Err(*opened),
        };
        Ok(self.moved(value, distances))
    }

    /// A step that leaves the value as it is.
    #[must_use]
    pub fn stay(&self) -> Chain {
        self.moved(self.value.clone(), self.distances.clone())
    }

    /// One step more.
    fn moved(&self, value: Multivector, distances: Result<Distances, Opened>) -> Chain {
        Chain { value, steps: self.steps.saturating_add(1), distances }
    }

    /// The product of two chains, given its value and what its step makes of the distances of both.
    fn joined(
        &self,
        right: &Chain,
        value: Multivector,
        step: impl for<'c> FnOnce(Side<'c>, Side<'c>, &Multivector) -> Result<Outcome, Error>,
    ) -> Result<Chain, Error> {
        let steps = self.steps.saturating_add(right.steps).saturating_add(1);
        let distances = match (&self.distances, &right.distances) {
            (Ok(left_ones), Ok(right_ones)) => {
                let sides = [(&self.value, left_ones), (&right.value, right_ones)];
                let [left, right] = sides.map(|(value, distances)| Side::new(value, distances));
                step(left, right, &value)?.map_err(|why| Opened { step: steps, why })
            }
            (Err(opened), _) => Err(*opened),
            (_, Err(opened)) => Err(opened.after(self.steps)),
        };
        Ok(Chain { value, steps, distances })
    }
}
