//! The numbers are those of replay, and the distances those of the library and of product.
use super::{Files, files};
use crate::support::{Rng, run};
use thresholm::rig::{Rig, blade_names, spelled};
use thresholm::{Log, Multivector, Sheet};

/// A rig of values that meet in few dimensions, and a log over it.
fn drawn(rng: &mut Rng) -> (String, String) {
    let value = |rng: &mut Rng| {
        let dims = rng.below(4);
        let flavor = rng.pick(&["VGA", "PGA", "VGA", "Cl 1 1 0"]);
        let numbers: Vec<String> =
            (0..1 << dims).map(|_| rng.pick(&["0", "0.5", "-3", "0.1", "1e-3", "7.25"])).map(String::from).collect();
        format!(": {dims} {flavor}\n {}\n", numbers.join(" "))
    };
    let rig = (0..4).map(|_| value(rng)).collect();
    let step = |rng: &mut Rng| match rng.below(8) {
        0 => "reverse".to_string(),
        1 => format!("dims {}", 1 + rng.below(5)),
        2 => format!("halt {}", rng.below(4)),
        kind => format!("{} {}", ["left", "right"][kind % 2], rng.below(4)),
    };
    (rig, (0..8).map(|_| step(rng) + "\n").collect())
}

fn parsed(files: &Files, rig: &str, log: &str) -> (Sheet, Log) {
    let rig: Rig = rig.parse().unwrap_or_else(|fault| panic!("{}: {fault}", files.rig));
    (rig.sheet().clone(), log.parse().unwrap_or_else(|fault| panic!("{}: {fault}", files.log)))
}

#[test]
fn numbers_are_those_of_replay_at_every_cue() {
    let mut rng = Rng(11);
    for _ in 0..6 {
        let (rig, log) = drawn(&mut rng);
        let files = files("drift-replay", &rig, &log);
        let pose = |cue: usize| -> Multivector {
            let out = run(&["replay", &files.rig, &files.log, "--cue", &cue.to_string()]).done();
            out.parse::<Rig>().expect("the text of a rig").sheet().value(0).expect("a value")
        };
        let last = pose(8);
        let names = blade_names(last.shape());
        for name in [rng.pick(&names), rng.pick(&names), "1".to_string()] {
            for (cue, number) in files.numbers(&name).iter().enumerate() {
                let pose = pose(cue);
                let place = blade_names(pose.shape()).iter().position(|here| *here == name);
                // Where the blade has another name there, its sign is tested apart.
                if let Some(place) = place {
                    assert_eq!(*number, spelled(pose.numbers()[place]), "{name} at cue {cue} of {rig}{log}");
                }
            }
        }
    }
}

#[test]
fn numbers_and_distances_are_those_of_the_library() {
    let mut rng = Rng(12);
    for _ in 0..6 {
        let (rig, log) = drawn(&mut rng);
        let files = files("drift-reel", &rig, &log);
        let (sheet, log) = parsed(&files, &rig, &log);
        let reel = sheet.reel(&log).expect("the log fits");
        let last = reel.cues().last().expect("a cue");
        for (place, name) in blade_names(last.value().shape()).iter().enumerate() {
            let out = files.drift(&["--csv", "--blade", name]);
            let line = out.lines().last().expect("a line");
            let within = last.distances().map(|all| spelled(all[place].to_f64())).unwrap_or_default();
            let open = if last.distances().is_none() { "yes" } else { "no" };
            let expected = format!(",{name},{},{within},{open}", spelled(last.value().numbers()[place]));
            assert!(line.ends_with(&expected), "{line} {expected}");
        }
        assert_eq!(files.drift(&["--csv"]).lines().count(), reel.cues().len() + 1);
    }
}

#[test]
fn one_step_has_the_bound_of_its_product() {
    let room = "dolly: 3 PGA\n 1 = 0.8 e01 = 517.6 e20 = 388.2 e12 = 0.25\nturn: 3 PGA\n 1 = 0.9 e01 = 3 e12 = 0.1 e012 = 0.7\n";
    let files = files("drift-product", room, "right turn\n");
    let product = run(&["product", &files.rig, "0", "1"]).done();
    let mut compared = 0;
    for blade in ["1", "e0", "e01", "e20", "e12", "e012"] {
        let out = files.drift(&["--blade", blade]);
        let row = out.lines().nth(5).expect("cue 1");
        let said: Vec<&str> = row.split_whitespace().skip(3).collect();
        let line = product.lines().map(|line| line.split_whitespace().collect::<Vec<_>>());
        if let Some(line) = line.into_iter().find(|line| line.first() == Some(&blade)) {
            assert_eq!(line[1..], said, "{product}");
            compared += 1;
        }
    }
    assert!(compared >= 4, "{product}");
}
