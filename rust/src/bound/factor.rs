//! The factors of a product: their numbers taken apart, the contributing pairs of each coefficient, and the sum of their exact sizes.
use super::guarantee::{Coefficient, Guarantee, Outside};
use super::size::{Digits, Size};

/// A factor of a product.
pub struct Factor {
    /// The digits of each number, by its mask. None where a number is not finite.
    digits: Option<Vec<Digits>>,
    /// The least p, not negative, for which finite numbers are multiples of 2^-p.
    fineness: usize,
    /// The first number that is outside.
    pub outside: Option<Outside>,
}

impl Factor {
    /// A factor of its numbers, given the place of each mask.
    pub fn new(numbers: &[f64], places: &[u16]) -> Factor {
        let by_mask = || places.iter().map(|place| Digits::of(numbers[usize::from(*place)])).collect();
        let digits: Option<Vec<Digits>> = numbers.iter().all(|x| x.is_finite()).then(by_mask);
        let fineness = digits.iter().flatten().map(Digits::fineness).max().unwrap_or(0);
        Factor { digits, fineness, outside: outside(numbers) }
    }

    /// The coefficient of a mask in the product with another factor, given the masks of its contributing pairs in this one.
    pub fn coefficient(&self, other: &Factor, mask: usize, masks: impl Iterator<Item = usize> + Clone) -> Coefficient {
        let pairs = masks.clone().fold(0, |count, _| count + 1);
        let sizes = self.digits.as_ref().zip(other.digits.as_ref()).map(|(left, right)| {
            masks.fold(Size::default(), |mut sizes, a| {
                sizes.add_product(left[a], right[a ^ mask]);
                sizes
            })
        });
        let bounded = self.outside.is_none() && other.outside.is_none();
        let guarantee = match &sizes {
            Some(sizes) if sizes.is_on_grid(self.fineness + other.fineness) => Guarantee::Exact,
            Some(sizes) if bounded => Guarantee::Within(sizes.limit(pairs)),
            _ => Guarantee::Open,
        };
        Coefficient { pairs, sizes, guarantee }
    }
}

/// The first number that is neither zero nor from 2^-400 to 2^400 in size.
fn outside(numbers: &[f64]) -> Option<Outside> {
    let (least, most) = (2f64.powi(-400), 2f64.powi(400));
    let place = numbers.iter().position(|x| *x != 0.0 && !(least..=most).contains(&x.abs()))?;
    Some(Outside { place, number: numbers[place] })
}
