//! What is wrong with the files is said as replay says it.
use super::files;
use crate::support::{file, run};

#[test]
fn faults_are_those_of_replay() {
    let files = files("drift-faults", "mic: 2 VGA\n e1 = 3 e2 = 4\n", "");
    let good = &files.rig;
    for log in ["reverse\n turn 3", "right 5", "left mike", "dims x", "\u{7}\0\u{1}", "\u{4}\0\u{1}\u{9}"] {
        let log = file(&files.folder, "moves.txt", log.as_bytes());
        let [drift, replay] = ["drift", "replay"].map(|name| run(&[name, good, &log]).refused());
        assert!(drift.starts_with(&log), "{drift}");
        assert_eq!(drift, replay);
    }
    let log = &files.log;
    let wrong = [&b"mic: 0 VGA\n 1,5"[..], b"# nothing", b"", &[0; 6], &[1, 0, 0, 0, 0, 0, 9]];
    for (index, rig) in wrong.into_iter().enumerate() {
        let rig = file(&files.folder, &format!("rig-{index}"), rig);
        let [drift, replay] = ["drift", "replay"].map(|name| run(&[name, &rig, log]).refused());
        assert!(drift.starts_with(&rig), "{drift}");
        assert_eq!(drift, replay);
    }
    let none = format!("{log}.none");
    assert!(run(&["drift", good, &none]).refused().starts_with(&format!("{none}: it cannot be read: ")));
    let log = file(&files.folder, "moves.txt", b"right 0");
    let turned = run(&["drift", &log, good]).refused();
    assert!(turned.ends_with(&format!(" (the rig comes first, and {good} is one)\n")), "{turned}");
    assert_eq!(run(&["drift", good, good]).refused(), format!("{good}: this is a rig, and no log\n"));
}
