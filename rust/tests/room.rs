//! Values lend room for every result, whatever the shapes and the numbers: no call on values is refused for room, and each gives what the call on
//! lent slices gives.
use thresholm::{Error, Flavor, MAX_BLADES, Multivector, Shape, lent};

/// Draws numbers by xorshift.
struct Draw(u64);

impl Draw {
    fn below(&mut self, bound: u64) -> u64 {
        self.0 ^= self.0 << 13;
        self.0 ^= self.0 >> 7;
        self.0 ^= self.0 << 17;
        self.0 % bound
    }

    fn small(&mut self, bound: u8) -> u8 {
        u8::try_from(self.below(u64::from(bound))).unwrap()
    }

    fn flavor(&mut self) -> Flavor {
        match self.below(3) {
            0 => Flavor::Vanilla,
            1 => Flavor::Projective,
            _ => Flavor::Cl(0, self.small(3), self.small(3)),
        }
    }

    fn number(&mut self) -> f64 {
        const SPECIAL: [f64; 8] = [0.0, -0.0, 1.0, -1.5, f64::NAN, f64::INFINITY, 1e200, 5e-324];
        SPECIAL[usize::try_from(self.below(8)).unwrap()]
    }

    /// Often few dimensions, at times up to 9; often a scalar or a planar value.
    fn value(&mut self) -> Multivector {
        let dims = if self.below(8) == 0 { 7 + self.small(3) } else { self.small(5) };
        let shape = Shape::new(dims, self.flavor());
        let kind = self.below(4);
        let numbers: Vec<f64> = (0..shape.blade_count().unwrap())
            .map(|place| match kind {
                0 if place != 0 => 0.0,
                1 if place == 1 || place == 2 => 0.0,
                _ => self.number(),
            })
            .collect();
        Multivector::new(shape, numbers).unwrap()
    }
}

/// The same refusal, or the same shape and the same numbers, any NaN like any other.
#[track_caller]
fn same(value: Result<Multivector, Error>, call: impl FnOnce(&mut [f64]) -> Result<Shape, Error>) {
    let mut out = [77.0; MAX_BLADES];
    let lent = call(&mut out);
    assert_eq!(value.as_ref().map(Multivector::shape), lent.as_ref().copied());
    let Ok(value) = value else {
        assert_ne!(lent, Err(Error::NoRoom));
        return assert_eq!(out, [77.0; MAX_BLADES]);
    };
    assert_eq!(value.numbers().len(), value.shape().blade_count().unwrap());
    for (a, b) in value.numbers().iter().zip(&out) {
        assert!(a.to_bits() == b.to_bits() || a.is_nan() && b.is_nan());
    }
    assert!(out[value.numbers().len()..].iter().all(|&x| x == 77.0));
}

#[test]
fn two_values() {
    let mut draw = Draw(0x9E37_79B9_7F4A_7C15);
    for _ in 0..2000 {
        let (a, b) = (draw.value(), draw.value());
        let (s, t, x, y) = (a.shape(), b.shape(), a.numbers(), b.numbers());
        same(&a * &b, |out| lent::mul(s, t, x, y, out));
        same(&a + &b, |out| lent::add(s, t, x, y, out));
        same(&a - &b, |out| lent::sub(s, t, x, y, out));
        same(&a / &b, |out| lent::div(s, t, x, y, out));
        same(a.regressive_product(&b), |out| lent::regressive_product(s, t, x, y, out));
        same(a.conform_to(t), |out| lent::conform_to(s, t, x, out));
        let both = a.conform(&b);
        let mut beside = [0.0; MAX_BLADES];
        same(both.clone().map(|(left, _)| left), |out| {
            lent::conform(s, t, x, y, out, &mut beside).map(|(left, _)| left)
        });
        same(both.map(|(_, right)| right), |out| lent::conform(s, t, x, y, &mut beside, out).map(|(_, right)| right));
    }
}

#[test]
fn products() {
    let mut draw = Draw(0xD1B5_4A32_D192_ED03);
    for _ in 0..300 {
        let (a, b) = (draw.value(), draw.value());
        let (s, t, x, y) = (a.shape(), b.shape(), a.numbers(), b.numbers());
        macro_rules! both {
            ($($name:ident)*) => {$(
                let pairs = a.$name(&b).map(|product| product.pairs);
                same(a.$name(&b).map(|product| product.value), |out| {
                    let told = lent::$name(s, t, x, y, out);
                    assert_eq!(pairs, told.map(|(_, pairs)| pairs));
                    told.map(|(shape, _)| shape)
                });
            )*};
        }
        both!(general_product left_contraction right_contraction inner_product outer_product);
    }
}

#[test]
fn one_value() {
    let mut draw = Draw(0x2545_F491_4F6C_DD1D);
    for _ in 0..2000 {
        let a = draw.value();
        let (s, x) = (a.shape(), a.numbers());
        same(Ok(-&a), |out| lent::neg(s, x, out));
        same(Ok(a.reverse()), |out| lent::reverse(s, x, out));
        same(Ok(a.inv_reverse()), |out| lent::inv_reverse(s, x, out));
        same(Ok(a.dual()), |out| lent::dual(s, x, out));
        same(Ok(a.antidual()), |out| lent::antidual(s, x, out));
        same(Ok(a.make_scalar_only()), |out| lent::make_scalar_only(s, x, out));
        same(a.inverted(), |out| lent::inverted(s, x, out));
        let f = draw.number();
        same(Ok(a.mul_f64(f)), |out| lent::mul_f64(s, f, x, out));
        same(Ok(a.div_f64(f)), |out| lent::div_f64(s, f, x, out));
        same(Ok(a.take_scalar().0), |out| lent::take_scalar(s, x, out).map(|(shape, _)| shape));
        let (d, flavor) = (draw.small(11), draw.flavor());
        same(a.set_dims(d), |out| lent::set_dims(s, d, x, out));
        same(a.set_flavor(flavor), |out| lent::set_flavor(s, flavor, x, out));
        let bits = draw.small(11);
        let mask = usize::try_from(draw.below(1 << bits)).unwrap();
        same(a.set_blade(mask, f), |out| lent::set_blade(s, mask, f, x, out));
    }
}

#[test]
fn powers() {
    let mut draw = Draw(0x0123_4567_89AB_CDEF);
    let exponents = [0, 1, 2, 3, 5, -1, -2, -3, i32::MAX, i32::MIN];
    for _ in 0..100 {
        let a = draw.value();
        for exponent in exponents {
            same(a.powi(exponent), |out| lent::powi(a.shape(), exponent, a.numbers(), out));
        }
    }
}

#[test]
fn few_numbers() {
    let mut draw = Draw(0xFEDC_BA98_7654_3210);
    for dims in (0..=11).chain([128, 255]) {
        for count in (0..40).chain([126, 128, 256, 257, 512]) {
            let v = vec![1.5; count];
            let flavor = draw.flavor();
            same(Multivector::vector(&v, flavor), |out| lent::vector(&v, flavor, out));
            same(Multivector::n_1_blades(&v, flavor), |out| lent::n_1_blades(&v, flavor, out));
            let shape = Shape::new(dims, flavor);
            same(Multivector::blades_left(dims, &v, flavor), |out| lent::blades_left(shape, &v, out));
            same(Multivector::blades_right(dims, &v, flavor), |out| lent::blades_right(shape, &v, out));
            same(Multivector::scalar(dims, 2.5, flavor), |out| lent::scalar(shape, 2.5, out));
            same(Multivector::pseudoscalar(dims, 2.5, flavor), |out| lent::pseudoscalar(shape, 2.5, out));
        }
    }
}

#[test]
fn some_numbers() {
    let mut draw = Draw(0x1357_9BDF_0246_8ACE);
    for _ in 0..300 {
        let a = draw.value();
        for d in 0..=10 {
            let room = 1usize.checked_shl(u32::from(d)).unwrap();
            for unpacked in [a.unpack_all(d), a.unpack_even(d), a.unpack_odd(d)] {
                match unpacked {
                    Ok(numbers) => {
                        assert!(d <= 9 && [room, room.div_ceil(2)].contains(&numbers.len()))
                    }
                    Err(error) => assert_eq!((d, error), (10, Error::TooManyDims)),
                }
            }
        }
        let half = a.numbers().len().div_ceil(2);
        assert_eq!((a.unpack_own_even().len(), a.unpack_own_odd().len()), (half, half));
        assert_eq!(a.unpack_vector().len(), usize::from(a.dims()));
    }
}
