//! A reader and a writer of rig sheets, made from document 01's paragraph and nothing else: neither the crate's code nor its
//! definitions were used.

/// Dims, kind (0 Vanilla, 1 Projective or 2 Cl), then p, n, z, zero unless kind 2.
#[derive(Clone, Copy, Debug, Default, PartialEq)]
pub struct Shape {
    pub dims: u8,
    pub kind: u8,
    pub p: u8,
    pub n: u8,
    pub z: u8,
}

/// The shapes, and the coefficients' bits in shape order.
#[derive(Clone, Debug, Default, PartialEq)]
pub struct Sheet {
    pub shapes: Vec<Shape>,
    pub patterns: Vec<u64>,
}

/// Bytes that are no sheet.
#[derive(Debug)]
pub struct Malformed;

/// The bytes that are left to read.
struct Cursor<'a>(&'a [u8]);

impl Cursor<'_> {
    fn take<const N: usize>(&mut self) -> Result<[u8; N], Malformed> {
        let (taken, rest) = self.0.split_first_chunk().ok_or(Malformed)?;
        self.0 = rest;
        Ok(*taken)
    }
    fn shape(&mut self) -> Result<Shape, Malformed> {
        match self.take()? {
            [dims @ 0..=9, kind @ 0..=1, 0, 0, 0] => Ok(Shape { dims, kind, p: 0, n: 0, z: 0 }),
            [dims @ 0..=9, kind @ 2, p, n, z] => Ok(Shape { dims, kind, p, n, z }),
            _ => Err(Malformed),
        }
    }
    fn pattern(&mut self) -> Result<u64, Malformed> {
        self.take().map(u64::from_le_bytes)
    }
}

/// The sum of the 2^d; none where a dimension is above 9.
pub fn coefficients(shapes: &[Shape]) -> Option<u64> {
    shapes.iter().map(|s| (s.dims <= 9).then(|| 1 << s.dims)).sum()
}

pub fn read(bytes: &[u8]) -> Result<Sheet, Malformed> {
    let mut left = Cursor(bytes);
    let count = u16::from_le_bytes(left.take()?);
    if count > 64 {
        return Err(Malformed);
    }
    let shapes = (0..count).map(|_| left.shape()).collect::<Result<Vec<_>, _>>()?;
    let count = u32::from_le_bytes(left.take()?);
    if count > 4096 || coefficients(&shapes) != Some(count.into()) {
        return Err(Malformed);
    }
    let patterns = (0..count).map(|_| left.pattern()).collect::<Result<_, _>>()?;
    if left.0.is_empty() { Ok(Sheet { shapes, patterns }) } else { Err(Malformed) }
}

/// The bytes of the sections as they are given, within the limits or not.
pub fn write(sheet: &Sheet) -> Vec<u8> {
    let mut bytes = (sheet.shapes.len() as u16).to_le_bytes().to_vec();
    for s in &sheet.shapes {
        bytes.extend([s.dims, s.kind, s.p, s.n, s.z]);
    }
    bytes.extend((sheet.patterns.len() as u32).to_le_bytes());
    for x in &sheet.patterns {
        bytes.extend(x.to_le_bytes());
    }
    bytes
}
