//! Numbers to try: a fixed generator, special values, and values of every size.

/// The generator of a seed (splitmix64).
pub struct Rng(pub u64);

impl Rng {
    pub fn next(&mut self) -> u64 {
        self.0 = self.0.wrapping_add(0x9e37_79b9_7f4a_7c15);
        let mut z = self.0;
        z = (z ^ (z >> 30)).wrapping_mul(0xbf58_476d_1ce4_e5b9);
        z = (z ^ (z >> 27)).wrapping_mul(0x94d0_49bb_1331_11eb);
        z ^ (z >> 31)
    }
    /// A number below n.
    pub fn below(&mut self, n: usize) -> usize {
        (self.next() % n as u64) as usize
    }
    pub fn pick<T: Copy>(&mut self, list: &[T]) -> T {
        list[self.below(list.len())]
    }
    /// A special value, a small whole number, or any pattern at all.
    pub fn number(&mut self) -> f64 {
        match self.below(4) {
            0 => self.pick(&SPECIAL),
            1 => self.below(19) as f64 - 9.0,
            2 => (self.next() as i64 as f64) / 2f64.powi(40),
            _ => f64::from_bits(self.next()),
        }
    }
    pub fn numbers(&mut self, n: usize) -> Vec<f64> {
        (0..n).map(|_| self.number()).collect()
    }
    pub fn sign(&mut self) -> f64 {
        self.pick(&[1.0, -1.0])
    }
    /// A whole number of 2^-p, its size below 2^bits of them.
    pub fn multiple(&mut self, p: usize, bits: usize) -> f64 {
        let size = self.next() >> 1 >> (63 - bits);
        self.sign() * size as f64 * 2f64.powi(-(p as i32))
    }
    /// A number from 2^-400 to 2^400 in size, within 2^width of 2^center, or zero; its first and last `free` digits are drawn.
    pub fn sized(&mut self, center: i32, width: usize, free: u32) -> f64 {
        let e = (center + self.below(2 * width + 1) as i32 - width as i32).clamp(-400, 400);
        let digits = self.next() >> 12;
        let kept = digits >> (52 - free) << (52 - free) | digits & ((1 << free) - 1);
        let size = f64::from_bits((1023 + e) as u64 * (1 << 52) + kept);
        if self.below(9) == 0 { self.sign() * 0.0 } else { self.sign() * size.min(2f64.powi(400)) }
    }
    /// A number at the snap's edge or near it: some steps from a whole number, or about 1e-14 in size.
    pub fn near_whole(&mut self) -> f64 {
        let k = self.below(201) as i64 - 100;
        let size = match self.below(6) {
            0 => steps(1e-14, k / 20),
            1 => steps(self.pick(&[2f64.powi(-46), 2f64.powi(-47)]), k / 20),
            2 => steps(2f64.powi(self.below(54) as i32), k / 10),
            _ => steps(1.0 + self.below(140) as f64, k),
        };
        self.sign() * size
    }
}

/// The number that is k steps of the last bit from a positive one.
pub fn steps(x: f64, k: i64) -> f64 {
    f64::from_bits((x.to_bits() as i64 + k) as u64)
}

/// Zeros, units, a half, subnormals, the ends of demand 3's range, the largest, infinities, NaNs of both
/// signs with a payload, and values about 1e-14 from a whole number.
pub const SPECIAL: [f64; 24] = [
    0.0,
    -0.0,
    1.0,
    -1.0,
    0.5,
    -2.5,
    5e-324,
    -5e-324,
    f64::from_bits(0x000f_ffff_ffff_ffff),
    f64::MIN_POSITIVE,
    f64::from_bits(0x26f0_0000_0000_0000),
    f64::from_bits(0x58f0_0000_0000_0000),
    f64::from_bits(0xd8f0_0000_0000_0000),
    f64::MAX,
    f64::MIN,
    f64::INFINITY,
    f64::NEG_INFINITY,
    f64::from_bits(0x7ff8_0000_0000_0001),
    f64::from_bits(0xfff0_0000_dead_beef),
    1e-14,
    -9.999999999999999e-15,
    0.99999999999999,
    1.00000000000001,
    9007199254740993.0,
];

/// The special values, and where the snap turns: 2^-46 and 2^-47, 1e-14 and its neighbours, and for some whole numbers the
/// last step that goes to them and the first that stays, above and below.
pub fn edges() -> Vec<f64> {
    let mut list = SPECIAL.to_vec();
    for x in [2f64.powi(-46), 2f64.powi(-47), 1e-14] {
        list.extend([-x, x, steps(x, 1), steps(x, -1), -steps(x, -1)]);
    }
    for (w, above, below) in
        [(1, 45, 90), (2, 22, 45), (4, 11, 22), (8, 5, 11), (16, 2, 5), (32, 1, 2), (64, 0, 1), (128, 0, 0)]
    {
        list.extend([above, above + 1, -below, -below - 1].map(|k| steps(w as f64, k)));
    }
    list.extend([3.0, 1.0 / 3.0, 0.1, 1.5, 2f64.powi(52) - 0.5, 2f64.powi(53) - 1.0, 2f64.powi(53) + 2.0]);
    list.extend([2f64.powi(-537), 2f64.powi(-538), -2f64.powi(511), 2f64.powi(512)]);
    list.sort_by(f64::total_cmp);
    list.dedup_by_key(|x| x.to_bits());
    list
}
