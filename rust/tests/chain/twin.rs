//! A chain beside its exact fractions.
use crate::real::{Op, Real};
use thresholm::bound::{self, Chain, Guarantee};
use thresholm::{Error, Multivector};

/// A chain, its exact numbers, and the factors of the last step.
#[derive(Clone)]
pub struct Twin {
    pub chain: Chain,
    pub real: Real,
    pub factors: Option<[Multivector; 2]>,
}

/// A product of two chains by its name.
pub fn by(left: &Chain, op: Op, right: &Chain) -> Result<Chain, Error> {
    match op {
        Op::Times => left.times(right),
        Op::General => left.general_product(right),
        Op::Left => left.left_contraction(right),
        Op::Right => left.right_contraction(right),
        Op::Inner => left.inner_product(right),
        Op::Outer => left.outer_product(right),
    }
}

impl Twin {
    pub fn given(value: Multivector) -> Twin {
        Twin { real: Real::of(&value), chain: Chain::new(value), factors: None }
    }

    /// None where the chain opens.
    pub fn by(&self, op: Op, right: &Twin) -> Option<Twin> {
        let chain = by(&self.chain, op, &right.chain).expect("few dimensions");
        let scalar = op == Op::Times && right.chain.value().numbers().iter().skip(1).all(|x| *x == 0.0);
        let real = if scalar { self.real.by_scalar(&right.real) } else { Some(self.real.by(op, &right.real)) };
        let factors = Some([&self.chain, &right.chain].map(|factor| factor.value().clone()));
        chain.distances()?;
        let real = real.expect("it opens where the exact product has no place");
        assert_eq!(chain.value().shape(), real.shape);
        assert_eq!(chain.steps(), self.chain.steps() + right.chain.steps() + 1);
        Some(Twin { chain, real, factors })
    }

    pub fn reverse(&self) -> Twin {
        Twin { chain: self.chain.reverse(), real: self.real.reverse(), factors: None }
    }

    pub fn set_dims(&self, dims: u8) -> Twin {
        let chain = self.chain.set_dims(dims).expect("few dimensions");
        Twin { chain, real: self.real.set_dims(dims), factors: None }
    }

    /// For each number its true distance and the distance that is guaranteed, both rounded up.
    pub fn distances(&self) -> Vec<(f64, f64)> {
        let guaranteed = self.chain.distances().expect("it is not open");
        let gaps = self.real.gaps(self.chain.value());
        assert_eq!(gaps.len(), guaranteed.len());
        gaps.iter().zip(guaranteed).map(|(gap, size)| (gap.to_f64(), size.to_f64())).collect()
    }

    /// Whether a number lies farther from the exact one than the last step's own bound says, as it was printed before there were chains.
    pub fn exceeds_last(&self) -> bool {
        let [left, right] = self.factors.as_ref().expect("the last step is a product");
        let bound = bound::of_general_product(left, right).expect("it was done");
        let own = bound.coefficients().iter().map(|coefficient| match coefficient.guarantee() {
            Guarantee::Within(limit) => limit.to_f64(),
            _ => 0.0,
        });
        self.real.gaps(self.chain.value()).iter().zip(own).any(|(gap, own)| !gap.is_within(own))
    }
}
