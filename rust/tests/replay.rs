//! `Sheet::replay`: what a log leads to is what the named operations do, step for step.
use thresholm::{Error, Flavor, Log, MAX_STEPS, Multivector, Replay, Shape, Sheet, Step};

/// Numbers drawn from a seed.
struct Draw(u64);

impl Draw {
    fn below(&mut self, bound: u64) -> u64 {
        self.0 ^= self.0 << 13;
        self.0 ^= self.0 >> 7;
        self.0 ^= self.0 << 17;
        self.0 % bound
    }

    fn byte(&mut self, bound: u64) -> u8 {
        u8::try_from(self.below(bound)).unwrap()
    }

    /// Of few dimensions, and at times of 9; often a scalar.
    fn value(&mut self) -> Multivector {
        let dims = if self.below(20) == 0 { 9 } else { self.byte(4) };
        let flavor = [Flavor::Vanilla, Flavor::Projective, Flavor::Cl(0, 1, 1)][usize::from(self.byte(3))];
        let shape = Shape::new(dims, flavor);
        let scalar = self.below(3) == 0;
        let number = |place: usize| if scalar && place > 0 { 0.0 } else { f64::from(self.byte(5)) - 2.0 };
        let numbers: Vec<f64> = (0..shape.blade_count().unwrap()).map(number).collect();
        Multivector::new(shape, numbers).unwrap()
    }

    fn step(&mut self, values: u64) -> Step {
        match self.below(12) {
            0..4 => Step::Right(self.byte(values)),
            4..7 => Step::Left(self.byte(values)),
            7..9 => Step::Reverse,
            9 => Step::Dims(self.byte(6)),
            10 => Step::Dims(self.byte(256)),
            _ => Step::Halt(self.byte(values)),
        }
    }
}

/// The sheet of one value, the number 1 alone.
fn one() -> Sheet {
    Sheet::from_values(&[Multivector::scalar(0, 1.0, Flavor::Vanilla).unwrap()]).unwrap()
}

fn log(steps: &[Step]) -> Log {
    Log::new(steps).unwrap()
}

/// The steps done one by one, by the crate's own operations.
fn by_hand(sheet: &Sheet, log: &Log) -> (Multivector, usize, Option<Error>) {
    let mut pose = sheet.value(0).unwrap();
    for (index, step) in log.steps().iter().enumerate() {
        let value = sheet.value(step.value().unwrap_or(0).into()).unwrap();
        let next = match *step {
            Step::Right(_) => &pose * &value,
            Step::Left(_) => &value * &pose,
            Step::Reverse => Ok(pose.reverse()),
            Step::Dims(dims) => pose.set_dims(dims),
            Step::Halt(_) if pose.workstation_eq(&value) => return (pose, index + 1, None),
            _ => Ok(pose.clone()),
        };
        match next {
            Ok(next) => pose = next,
            Err(error) => return (pose, index, Some(error)),
        }
    }
    (pose, log.len(), None)
}

/// The same shape and the same numbers, any NaN like any other.
fn same(one: &Multivector, other: &Multivector) -> bool {
    let alike = |(a, b): (&f64, &f64)| a.to_bits() == b.to_bits() || a.is_nan() && b.is_nan();
    one.shape() == other.shape() && one.numbers().iter().zip(other.numbers()).all(alike)
}

#[track_caller]
fn led_to(replay: &Replay, numbers: &[f64], steps: usize, stopped: Option<Error>) {
    assert_eq!((replay.pose.numbers(), replay.steps, replay.stopped), (numbers, steps, stopped));
}

#[test]
fn an_empty_log_leads_to_value_0() {
    led_to(&one().replay(&Log::default()).unwrap(), &[1.0], 0, None);
    led_to(&Replay::of_bytes(&one().to_bytes().unwrap(), &[]).unwrap(), &[1.0], 0, None);
}

#[test]
fn a_refused_step_stops_it_with_the_pose_from_before() {
    let replay = one().replay(&log(&[Step::Reverse, Step::Dims(10)])).unwrap();
    led_to(&replay, &[1.0], 1, Some(Error::TooManyDims));
    let replay = Replay::of_bytes(&one().to_bytes().unwrap(), &[2, 0, 3, 10]).unwrap();
    led_to(&replay, &[1.0], 1, Some(Error::TooManyDims));
    let nine = Multivector::scalar(9, 2.0, Flavor::Vanilla).unwrap();
    let line = Multivector::vector(&[1.0], Flavor::Projective).unwrap();
    let sheet = Sheet::from_values(&[nine.clone(), line]).unwrap();
    let replay = sheet.replay(&log(&[Step::Right(0), Step::Right(1), Step::Dims(0)])).unwrap();
    assert_eq!((replay.steps, replay.stopped), (1, Some(Error::TooManyDims)));
    assert!(replay.pose.same_bits(&nine.mul_f64(2.0)));
}

#[test]
fn a_halt_that_fires_counts_and_ends_it() {
    let two = Multivector::scalar(0, 2.0, Flavor::Vanilla).unwrap();
    let sheet = Sheet::from_values(&[one().value(0).unwrap(), two]).unwrap();
    let steps = [Step::Halt(1), Step::Right(1), Step::Halt(1), Step::Right(1), Step::Dims(10)];
    led_to(&sheet.replay(&log(&steps)).unwrap(), &[2.0], 3, None);
    led_to(&sheet.replay(&log(&steps[..2])).unwrap(), &[2.0], 2, None);
    led_to(&sheet.replay(&log(&steps[3..])).unwrap(), &[2.0], 1, Some(Error::TooManyDims));
}

#[test]
fn up_to_200_steps_are_replayed() {
    let most = log(&[Step::Reverse; MAX_STEPS]);
    led_to(&one().replay(&most).unwrap(), &[1.0], 200, None);
    let bytes = one().to_bytes().unwrap();
    led_to(&Replay::of_bytes(&bytes, &[2; 400]).unwrap(), &[1.0], 200, None);
    for count in [399, 401, 402] {
        assert_eq!(Replay::of_bytes(&bytes, &vec![2; count]).map(drop), Err(Error::BadLog), "{count}");
    }
}

#[test]
fn a_log_that_cannot_be_replayed_is_refused_before_any_step() {
    let bytes = one().to_bytes().unwrap();
    for log in [&[4, 0, 7, 0][..], &[4, 0, 0, 1], &[4, 0, 1, 1], &[4, 0, 4, 255], &[3, 10, 5, 0], &[2], &[2, 0, 2]] {
        assert_eq!(Replay::of_bytes(&bytes, log).map(drop), Err(Error::BadLog), "{log:?}");
    }
    for log in [&[][..], &[2, 0], &[0, 0]] {
        assert_eq!(Replay::of_bytes(&[0; 6], log).map(drop), Err(Error::BadLog), "{log:?}");
        assert_eq!(Replay::of_bytes(&bytes[1..], log).map(drop), Err(Error::Malformed), "{log:?}");
    }
    assert_eq!(Replay::of_bytes(&bytes[1..], &[7]).map(drop), Err(Error::Malformed));
    assert_eq!(Replay::of_bytes(&[], &[2; 402]).map(drop), Err(Error::Malformed));
}

#[test]
fn at_every_cue_the_pose_is_that_of_the_steps_done_by_hand() {
    let mut draw = Draw(0x9E37_79B9_7F4A_7C15);
    let (mut halted, mut stopped) = (0, 0);
    for _ in 0..200 {
        let values: Vec<Multivector> = (0..1 + draw.below(5)).map(|_| draw.value()).collect();
        let sheet = Sheet::from_values(&values).unwrap();
        let count = values.len() as u64;
        let steps: Vec<Step> = (0..draw.below(14)).map(|_| draw.step(count)).collect();
        let log = log(&steps);
        for cue in 0..=steps.len() {
            let cut = log.to_cue(cue).unwrap();
            let replay = sheet.replay(&cut).unwrap();
            let (pose, done, refused) = by_hand(&sheet, &cut);
            assert_eq!((replay.steps, replay.stopped), (done, refused), "{cut}");
            assert!(same(&replay.pose, &pose), "{cut}{} is not {pose}", replay.pose);
        }
        assert_eq!(log.to_cue(steps.len() + 1), None);
        let whole = sheet.replay(&log).unwrap();
        stopped += usize::from(whole.stopped.is_some());
        halted += usize::from(whole.stopped.is_none() && whole.steps < steps.len());
    }
    assert!(halted > 10 && stopped > 10, "{halted} halted, {stopped} stopped");
}

#[test]
fn every_log_of_bytes_is_answered_as_its_parts_are() {
    let mut draw = Draw(0xD1B5_4A32_D192_ED03);
    let sheet =
        Sheet::from_values(&[0.5, 2.0, -1.0].map(|x| Multivector::scalar(1, x, Flavor::Vanilla).unwrap())).unwrap();
    let bytes = sheet.to_bytes().unwrap();
    let mut good = 0;
    for _ in 0..3000 {
        let count = draw.below(9);
        let most = [4, 5, 256][usize::from(draw.byte(3))];
        let log: Vec<u8> = (0..count).map(|_| draw.byte(most)).collect();
        let whole = Replay::of_bytes(&bytes, &log);
        let parts = Log::from_bytes(&log).and_then(|log| sheet.replay(&log));
        assert_eq!(
            whole.as_ref().map(|one| (one.steps, one.stopped)),
            parts.as_ref().map(|one| (one.steps, one.stopped)),
            "{log:?}"
        );
        if let (Ok(whole), Ok(parts)) = (whole, parts) {
            assert!(whole.pose.same_bits(&parts.pose), "{log:?}");
            good += 1;
        }
    }
    assert!(good > 300, "{good} are replayed");
}
