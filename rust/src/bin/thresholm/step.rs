//! Values multiplied from left to right: each step, and the whole.
use std::borrow::Cow;
use thresholm::bound::{Bound, Chain, of_general_product};
use thresholm::{Error, Multivector, Product, Shape};

/// A factor and what it is called.
#[derive(Clone)]
pub struct Factor {
    pub value: Multivector,
    pub called: String,
}

/// One step: its factors, and what it gives.
pub struct Step {
    /// Steps are counted from 1.
    pub number: usize,
    pub factors: [Factor; 2],
    /// The shapes that both factors are brought to first.
    pub shapes: [Shape; 2],
    pub product: Product,
    /// What is guaranteed of this step alone, with its factors as they stand.
    pub bound: Bound,
}

/// Factors multiplied from left to right.
pub struct Whole {
    pub factors: Vec<Factor>,
    pub steps: Vec<Step>,
    /// The result, with its distances from the exact product of all factors.
    pub chain: Chain,
}

/// A step that is refused, in words.
pub struct Refused {
    pub title: String,
    pub error: Error,
}

impl Step {
    /// The general product of two values, and what demand 3 guarantees of it. Both are asked of the values as they are conformed, and neither
    /// conforms such values again.
    fn of(number: usize, factors: [Factor; 2]) -> Result<Step, Refused> {
        match multiplied(&factors[0].value, &factors[1].value) {
            Ok((shapes, product, bound)) => Ok(Step { number, factors, shapes, product, bound }),
            Err(error) => Err(Refused { title: title(number, &factors), error }),
        }
    }

    /// `step 1: value 10 times value 9`.
    pub fn title(&self) -> String {
        title(self.number, &self.factors)
    }

    /// What it gives, as the left factor of the step after it.
    fn result(&self) -> Factor {
        Factor { value: self.product.value.clone(), called: format!("the result of step {}", self.number) }
    }
}

impl Whole {
    /// The first factor times all the others, in order. There is one at least.
    pub fn of(factors: Vec<Factor>) -> Result<Whole, Refused> {
        let mut left = factors[0].clone();
        let mut chain = Chain::new(left.value.clone());
        let mut steps = Vec::new();
        for (number, right) in factors.iter().enumerate().skip(1) {
            let step = Step::of(number, [left, right.clone()])?;
            let refused = |error| Refused { title: step.title(), error };
            chain = chain.general_product(&Chain::new(right.value.clone())).map_err(refused)?;
            left = step.result();
            steps.push(step);
        }
        Ok(Whole { factors, steps, chain })
    }
}

fn title(number: usize, [left, right]: &[Factor; 2]) -> String {
    format!("step {number}: {} times {}", left.called, right.called)
}

fn multiplied(left: &Multivector, right: &Multivector) -> Result<([Shape; 2], Product, Bound), Error> {
    let (left, right) = conformed(left, right)?;
    Ok(([left.shape(), right.shape()], left.general_product(&right)?, of_general_product(&left, &right)?))
}

/// Two values at the dimensions and the flavor that they meet in.
fn conformed<'v>(
    left: &'v Multivector,
    right: &'v Multivector,
) -> Result<(Cow<'v, Multivector>, Cow<'v, Multivector>), Error> {
    if left.shape() == right.shape() {
        return Ok((Cow::Borrowed(left), Cow::Borrowed(right)));
    }
    left.conform(right).map(|(left, right)| (Cow::Owned(left), Cow::Owned(right)))
}
