//! A blade by its name, which it keeps through changes of shape.
use thresholm::Shape;
use thresholm::rig::blade_names;

/// A blade: its basis vectors by their numbers, in the order of a name. Another order of the same ones may turn the sign of its number.
#[derive(Clone, Debug, PartialEq, Eq)]
pub struct Blade {
    name: String,
    /// Bit k: the basis vector ek is in it.
    vectors: u16,
    /// Whether the order of the name is an odd change of the rising one.
    odd: bool,
}

impl Blade {
    /// The blade of a name such as `e20`, its digits in any order, or `1`. None where it is no such name.
    pub fn named(name: &str) -> Option<Blade> {
        let digits = match name {
            "1" => "",
            _ => name.strip_prefix('e').filter(|digits| !digits.is_empty())?,
        };
        let (mut vectors, mut odd) = (0_u16, false);
        for digit in digits.chars() {
            let vector = 1 << digit.to_digit(10)?;
            if vectors & vector != 0 {
                return None;
            }
            // Each greater one that stands before it is an exchange.
            odd ^= (vectors & !(vector - 1)).count_ones() % 2 == 1;
            vectors |= vector;
        }
        Some(Blade { name: name.to_string(), vectors, odd })
    }

    /// The blade of the plain number, which every shape has.
    pub fn scalar() -> Blade {
        Blade { name: "1".to_string(), vectors: 0, odd: false }
    }

    /// The blades of a shape, in order.
    pub fn all(shape: Shape) -> Vec<Blade> {
        blade_names(shape).iter().filter_map(|name| Blade::named(name)).collect()
    }

    pub fn name(&self) -> &str {
        &self.name
    }

    /// A number that is the same for every name of the blade, below 1024.
    pub fn key(&self) -> usize {
        self.vectors.into()
    }

    /// The number of this blade, given that of the same blade by another name.
    pub fn read(&self, other: &Blade, number: f64) -> f64 {
        if self.odd == other.odd { number } else { turned(number) }
    }

    /// The number of the same blade with its basis vectors in rising order.
    pub fn rising(&self, number: f64) -> f64 {
        if self.odd { turned(number) } else { number }
    }
}

/// Zero has no sign to turn.
fn turned(number: f64) -> f64 {
    0.0 - number
}

#[cfg(test)]
mod tests {
    use super::*;
    use thresholm::Flavor;

    #[test]
    fn a_name_gives_its_vectors_and_its_order() {
        let known = |name: &str| Blade::named(name).map(|blade| (blade.key(), blade.odd));
        assert_eq!(known("1"), Some((0, false)));
        assert_eq!(known("e01"), Some((3, false)));
        assert_eq!(known("e20"), Some((5, true)));
        assert_eq!([known("e123"), known("e231"), known("e213")].map(|it| it.unwrap().1), [false, false, true]);
        assert_eq!(known("e987654321").map(|it| it.1), Some(false), "36 exchanges");
        for wrong in ["", "e", "E1", "e11", "12", "e1 ", "e-1", "é", "ee", "0"] {
            assert_eq!(known(wrong), None, "{wrong}");
        }
    }

    #[test]
    fn a_shape_has_each_blade_once() {
        for flavor in [Flavor::Vanilla, Flavor::Projective] {
            for dims in 0..=9 {
                let blades = Blade::all(Shape::new(dims, flavor));
                let mut keys: Vec<usize> = blades.iter().map(Blade::key).collect();
                keys.sort_unstable();
                keys.dedup();
                assert_eq!((blades.len(), keys.len()), (1 << dims, 1 << dims));
                let odd: Vec<&str> = blades.iter().filter(|blade| blade.odd).map(Blade::name).collect();
                assert_eq!(odd.len(), usize::from(dims == 3), "{odd:?}");
            }
        }
    }

    #[test]
    fn another_order_turns_the_sign() {
        let [rising, falling] = ["e02", "e20"].map(|name| Blade::named(name).unwrap());
        assert_eq!(rising.read(&falling, 3.0), -3.0);
        assert_eq!(rising.read(&rising, -3.0), -3.0);
        assert_eq!(rising.read(&falling, 0.0).to_bits(), 0);
        assert!(rising.read(&falling, f64::NAN).is_nan());
    }
}
