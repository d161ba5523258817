//! `Sheet::reel`: at every cue the pose is that of `Sheet::replay`, and its distances are those of the chain that led to it.
use thresholm::bound::{Chain, Opening};
use thresholm::{Error, Flavor, Log, Multivector, Reel, Shape, Sheet, Step};

/// Numbers drawn from a seed.
struct Draw(u64);

impl Draw {
    fn below(&mut self, bound: u64) -> u64 {
        self.0 ^= self.0 << 13;
        self.0 ^= self.0 >> 7;
        self.0 ^= self.0 << 17;
        self.0 % bound
    }

    fn byte(&mut self, bound: u64) -> u8 {
        u8::try_from(self.below(bound)).unwrap()
    }

    /// Whole, with no short binary form, large, or not finite, as `kind` says.
    fn number(&mut self, kind: u64) -> f64 {
        let whole = f64::from(self.byte(5)) - 2.0;
        match kind {
            0 => whole,
            1 => whole * 2f64.powi(290) / 3.0,
            2 if self.below(9) == 0 => [f64::NAN, f64::INFINITY][usize::from(self.byte(2))],
            _ => whole / 3.0,
        }
    }

    /// Of few dimensions, and at times of 9; often a scalar.
    fn value(&mut self) -> Multivector {
        let dims = if self.below(20) == 0 { 9 } else { self.byte(4) };
        let flavor = [Flavor::Vanilla, Flavor::Projective, Flavor::Cl(0, 1, 1)][usize::from(self.byte(3))];
        let shape = Shape::new(dims, flavor);
        let (scalar, kind) = (self.below(3) == 0, self.below(6));
        let number = |place: usize| if scalar && place > 0 { 0.0 } else { self.number(kind) };
        let numbers: Vec<f64> = (0..shape.blade_count().unwrap()).map(number).collect();
        Multivector::new(shape, numbers).unwrap()
    }

    fn step(&mut self, values: u64) -> Step {
        match self.below(12) {
            0..4 => Step::Right(self.byte(values)),
            4..7 => Step::Left(self.byte(values)),
            7..9 => Step::Reverse,
            9 => Step::Dims(self.byte(6)),
            10 => Step::Dims(self.byte(14)),
            _ => Step::Halt(self.byte(values)),
        }
    }
}

fn numbers(list: &[f64]) -> Sheet {
    let values: Vec<_> = list.iter().map(|x| Multivector::scalar(0, *x, Flavor::Vanilla).unwrap()).collect();
    Sheet::from_values(&values).unwrap()
}

fn reeled(sheet: &Sheet, steps: &[Step]) -> Reel {
    sheet.reel(&Log::new(steps).unwrap()).unwrap()
}

/// The same shape and the same numbers, any NaN like any other.
fn same(one: &Multivector, other: &Multivector) -> bool {
    let alike = |(a, b): (&f64, &f64)| a.to_bits() == b.to_bits() || a.is_nan() && b.is_nan();
    one.shape() == other.shape() && one.numbers().iter().zip(other.numbers()).all(alike)
}

/// Where a chain opened: its step, and whether by the value that was given, the left factor or the right one.
fn opened(chain: &Chain) -> Option<(usize, &'static str)> {
    chain.opened().map(|opened| match opened.why {
        Opening::Given(_) => (opened.step, "given"),
        Opening::Left(_) => (opened.step, "left"),
        Opening::Right(_) => (opened.step, "right"),
        _ => (opened.step, "scalar"),
    })
}

/// What a reel must be, by the replay of the log up to each cue.
fn holds(sheet: &Sheet, log: &Log) -> Reel {
    let reel = sheet.reel(log).unwrap();
    let whole = sheet.replay(log).unwrap();
    assert_eq!((reel.steps(), reel.stopped()), (whole.steps, whole.stopped), "{log}");
    assert_eq!(reel.cues().len(), reel.steps() + 1);
    assert_eq!(reel.halted(), whole.stopped.is_none() && halts(sheet, log, &reel), "{log}");
    for cue in 0..=log.len() {
        let replay = sheet.replay(&log.to_cue(cue).unwrap()).unwrap();
        let chain = &reel.cues()[cue.min(reel.steps())];
        assert!(same(chain.value(), &replay.pose), "cue {cue} of {log}");
        assert_eq!(chain.steps(), replay.steps);
    }
    // It is open from one cue on, with one step and one reason, and no step is later than the cue.
    for (cue, pair) in reel.cues().windows(2).enumerate() {
        if let Some(before) = opened(&pair[0]) {
            assert_eq!(opened(&pair[1]), Some(before));
        } else if let Some((step, _)) = opened(&pair[1]) {
            assert_eq!(step, cue + 1);
        }
    }
    reel
}

/// Whether the last step of a reel is a halt that fires.
fn halts(sheet: &Sheet, log: &Log, reel: &Reel) -> bool {
    let Some(last) = reel.steps().checked_sub(1) else { return false };
    let fires = |value: u8| reel.cues()[last].value().workstation_eq(&sheet.value(value.into()).unwrap());
    matches!(log.steps()[last], Step::Halt(value) if fires(value))
}

#[test]
fn at_every_cue_the_pose_is_that_of_the_replay() {
    let mut draw = Draw(0x9E37_79B9_7F4A_7C15);
    let (mut halted, mut stopped, mut opens) = (0, 0, [0; 4]);
    for _ in 0..250 {
        let values: Vec<Multivector> = (0..1 + draw.below(5)).map(|_| draw.value()).collect();
        let sheet = Sheet::from_values(&values).unwrap();
        let count = values.len() as u64;
        let steps: Vec<Step> = (0..draw.below(14)).map(|_| draw.step(count)).collect();
        let reel = holds(&sheet, &Log::new(steps).unwrap());
        halted += usize::from(reel.halted());
        stopped += usize::from(reel.stopped().is_some());
        let last = reel.cues().last().and_then(opened).map_or("", |(_, word)| word);
        opens[["given", "left", "right", ""].iter().position(|word| *word == last).unwrap_or(3)] += 1;
    }
    assert!(halted > 10 && stopped > 10, "{halted} halted, {stopped} stopped");
    assert!(opens.iter().all(|count| *count > 5), "given, left, right, closed: {opens:?}");
}

#[test]
fn each_cue_has_the_distances_of_the_chain() {
    let sheet = numbers(&[0.1, 0.3, 2.0]);
    let reel = reeled(&sheet, &[Step::Right(1), Step::Left(1), Step::Halt(2), Step::Dims(1), Step::Reverse]);
    let [x, y] = [0.1, 0.3].map(|x| Chain::new(Multivector::scalar(0, x, Flavor::Vanilla).unwrap()));
    let one = x.times(&y).unwrap();
    let two = y.times(&one).unwrap();
    let four = two.stay().set_dims(1).unwrap();
    for (cue, chain) in [&x, &one, &two, &two.stay(), &four, &four.reverse()].into_iter().enumerate() {
        assert_eq!(reel.cues()[cue].distances(), chain.distances(), "cue {cue}");
        assert_eq!(reel.cues()[cue].steps(), cue);
    }
    assert_eq!((reel.steps(), reel.halted(), reel.stopped()), (5, false, None));
}

#[test]
fn a_halt_that_fires_is_the_last_step_and_a_refused_step_is_none() {
    let sheet = numbers(&[1.0, 2.0]);
    let steps = [Step::Halt(1), Step::Right(1), Step::Halt(1), Step::Right(1), Step::Dims(10)];
    let reel = reeled(&sheet, &steps);
    assert_eq!((reel.steps(), reel.halted(), reel.stopped()), (3, true, None));
    assert_eq!(reel.cues()[3].value().numbers(), [2.0]);
    let reel = reeled(&sheet, &steps[3..]);
    assert_eq!((reel.steps(), reel.halted(), reel.stopped()), (1, false, Some(Error::TooManyDims)));
    let reel = reeled(&sheet, &[]);
    assert_eq!((reel.cues().len(), reel.steps(), reel.halted(), reel.stopped()), (1, 0, false, None));
}

#[test]
fn it_opens_at_the_step_that_brings_the_number_in() {
    let start = reeled(&numbers(&[f64::NAN, 0.3]), &[Step::Left(1), Step::Right(1)]);
    assert!(start.cues().iter().all(|chain| opened(chain) == Some((0, "given"))));
    let sheet = numbers(&[0.1, 0.3, f64::NAN, 1e200]);
    for (step, word) in [(Step::Right(2), "right"), (Step::Left(2), "left"), (Step::Right(3), "right")] {
        let reel = reeled(&sheet, &[Step::Right(1), step, Step::Right(2)]);
        let places: Vec<_> = reel.cues().iter().map(opened).collect();
        assert_eq!(places, [None, None, Some((2, word)), Some((2, word))]);
    }
}

#[test]
fn it_is_refused_as_the_replay_is() {
    let sheet = numbers(&[1.0]);
    for step in [Step::Right(1), Step::Left(1), Step::Halt(255)] {
        // Behind a halt too.
        let log = Log::new([Step::Halt(0), step]).unwrap();
        assert_eq!(sheet.reel(&log).map(|_| ()), Err(Error::BadLog));
        assert_eq!(sheet.replay(&log).map(|_| ()), Err(Error::BadLog));
    }
    let none = Sheet::from_values(&[]).unwrap();
    assert_eq!(none.reel(&Log::default()).map(|_| ()), Err(Error::BadLog));
}
