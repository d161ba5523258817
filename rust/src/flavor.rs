//! Flavors: what the basis vectors square to.

/// A flavor of geometric algebra: it says what each basis vector squares to.
///
/// ```
/// use thresholm::Flavor;
/// let flavor: Flavor = "Cl 3 1".parse()?;
/// assert_eq!(flavor, Flavor::Cl(3, 1, 0));
/// assert_eq!(flavor.to_string(), "Cl 3 1");
/// assert_eq!(flavor.metric(0), -1);
/// # Ok::<(), thresholm::Error>(())
/// ```
#[derive(Clone, Copy, Debug, Default, PartialEq, Eq, Hash)]
#[non_exhaustive]
pub enum Flavor {
    /// `VGA`: every basis vector squares to 1.
    #[default]
    Vanilla,
    /// `PGA`: basis vector 0 squares to 0, every other to 1.
    Projective,
    /// `Cl(p, n, z)`: the first z basis vectors square to 0, the next n to -1, the others to 1. The first number plays no part.
    Cl(u8, u8, u8),
}

impl Flavor {
    /// The flavor in which every basis vector that a value has squares to 0.
    pub const NULL: Flavor = Flavor::Cl(0, 0, 255);

    /// The flavor as four bytes: kind, p, n, z.
    #[must_use]
    pub const fn to_bytes(self) -> [u8; 4] {
        match self {
            Flavor::Vanilla => [0, 0, 0, 0],
            Flavor::Projective => [1, 0, 0, 0],
            Flavor::Cl(p, n, z) => [2, p, n, z],
        }
    }

    /// The flavor of four bytes: any kind above 1 is taken for Cl, and p, n and z are not looked at outside it.
    #[must_use]
    pub const fn from_bytes([kind, p, n, z]: [u8; 4]) -> Flavor {
        match kind {
            0 => Flavor::Vanilla,
            1 => Flavor::Projective,
            _ => Flavor::Cl(p, n, z),
        }
    }
}
