//! Multiples of whole numbers by powers of two of any sign, their products and their differences.
use super::Whole;

impl Whole {
    /// Adds m x 2^shift times another, rounded up.
    pub fn add_scaled(&mut self, other: &Whole, m: u64, shift: isize) {
        let mut scaled = Scaled { m, bits: shift.rem_euclid(64), carry: 0, below: 0 };
        let at = shift.div_euclid(64);
        // The words below place 0 are lost, and one more stands for what was in them.
        let count = at.min(0).unsigned_abs().min(other.0.len() + 2);
        let (low, high) = other.0.split_at(count.min(other.0.len()));
        let zeros = (low.len()..count).map(|_| &0);
        let lost = low.iter().chain(zeros).fold(0, |lost, word| lost | scaled.next(*word));
        self.add_words(at.max(0).unsigned_abs(), high, scaled);
        if lost != 0 {
            self.add_shifted(1, 0);
        }
    }

    /// Adds the scaled words of a number, and the two that follow its last, from a place on.
    fn add_words(&mut self, at: usize, words: &[u64], mut scaled: Scaled) {
        self.0.resize(self.0.len().max(at + words.len() + 2) + 1, 0);
        let mut over = 0;
        let mut add = |word: &mut u64, more: u64| {
            let sum = u128::from(*word) + u128::from(more) + over;
            *word = sum as u64;
            over = sum >> 64;
            over > 0
        };
        let (here, above) = self.0[at..].split_at_mut(words.len());
        for (word, x) in here.iter_mut().zip(words) {
            add(word, scaled.next(*x));
        }
        let (two, top) = above.split_at_mut(2);
        for word in two {
            add(word, scaled.next(0));
        }
        for word in top {
            if !add(word, 0) {
                break;
            }
        }
        self.trim();
    }

    /// Takes another off, which is not larger.
    pub fn subtract(&mut self, other: &Whole) {
        let mut over = false;
        for (place, word) in self.0.iter_mut().enumerate() {
            let part = other.0.get(place).copied().unwrap_or(0);
            let (rest, first) = word.overflowing_sub(part);
            let (rest, second) = rest.overflowing_sub(u64::from(over));
            *word = rest;
            over = first || second;
        }
        self.trim();
    }

    /// The product with another.
    pub fn times(&self, other: &Whole) -> Whole {
        let mut all = Whole::default();
        for (place, word) in other.0.iter().enumerate() {
            all.add_scaled(self, *word, 64 * place as isize);
        }
        all
    }
}

/// The words of a number times m x 2^bits, the lowest first.
struct Scaled {
    m: u64,
    bits: isize,
    carry: u128,
    below: u64,
}

impl Scaled {
    /// The next, given the number's: behind its last the next two zeros give what is left.
    fn next(&mut self, word: u64) -> u64 {
        let product = u128::from(word) * u128::from(self.m) + self.carry;
        let both = u128::from(product as u64) << 64 | u128::from(self.below);
        (self.carry, self.below) = (product >> 64, product as u64);
        (both << self.bits >> 64) as u64
    }
}

#[cfg(test)]
mod tests {
    use super::Whole;

    fn whole(x: u128) -> Whole {
        let mut all = Whole::default();
        all.add_shifted(x, 0);
        all
    }

    /// m x 2^shift times x, rounded up, by additions alone.
    fn by_additions(x: u128, m: u64, shift: isize) -> Whole {
        let mut all = Whole::default();
        for bit in (0..64).filter(|bit| m >> bit & 1 == 1) {
            all.add_shifted(x, bit + 400);
        }
        let lost = all.halve(usize::try_from(400 - shift).unwrap());
        all.add_shifted(u128::from(lost), 0);
        all
    }

    #[test]
    fn a_multiple_is_rounded_up() {
        let words = [0, 1, 3, u128::from(u64::MAX), 1 << 64, (1 << 100) + 1, u128::MAX];
        for (x, m) in words.iter().flat_map(|x| [0, 1, 5, 1 << 52, u64::MAX].map(|m| (*x, m))) {
            for shift in (-400..400).step_by(7).chain([-256, -192, -128, -64, -1, 0, 1, 64, 128]) {
                let mut all = Whole::default();
                all.add_scaled(&whole(x), m, shift);
                assert_eq!(all, by_additions(x, m, shift), "{x} x {m} x 2^{shift}");
                // Onto another it is the same.
                let mut more = Whole::power_of_two(90);
                more.add_scaled(&whole(x), m, shift);
                all.add_shifted(1, 90);
                assert_eq!(more, all);
            }
        }
    }

    #[test]
    fn carries_go_through_every_word() {
        for (count, at) in (1..5).flat_map(|count| (0..count).map(move |at| (count, at))) {
            let mut ones = Whole::power_of_two(64 * count);
            ones.subtract(&whole(1));
            assert_eq!(ones.length(), 64 * count);
            ones.add_scaled(&whole(1), 1, 64 * at as isize);
            let mut same = Whole::power_of_two(64 * count);
            same.add_shifted(1, 64 * at);
            same.subtract(&whole(1));
            assert_eq!(ones, same);
        }
    }

    #[test]
    fn what_is_added_is_taken_off_again() {
        let mut all = Whole::power_of_two(300);
        all.add_scaled(&whole(u128::MAX), 7, 33);
        all.subtract(&Whole::power_of_two(300));
        let mut seven = whole(u128::MAX);
        seven.multiply(7);
        seven.subtract(&whole(5));
        seven.add_shifted(5, 0);
        let lost = all.halve(33);
        assert_eq!((all, lost), (seven.clone(), false));
        seven.subtract(&seven.clone());
        assert!(seven.is_zero());
    }

    #[test]
    fn products_of_long_numbers() {
        // (2^128 - 1) (2^64 - 1) = 2^192 - 2^128 - 2^64 + 1.
        let mut same = Whole::power_of_two(192);
        same.subtract(&Whole::power_of_two(128));
        same.subtract(&Whole::power_of_two(64));
        same.add_shifted(1, 0);
        let [long, short] = [whole(u128::MAX), whole(u64::MAX.into())];
        assert_eq!((long.times(&short), short.times(&long)), (same.clone(), same));
        assert!(long.times(&Whole::default()).is_zero());
        assert_eq!(Whole::power_of_two(70).times(&Whole::power_of_two(700)), Whole::power_of_two(770));
    }
}
