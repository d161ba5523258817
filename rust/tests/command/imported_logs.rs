//! `thresholm import --over`: the text of a log becomes its bytes, or is refused as a replay refuses it.
use crate::support::{Run, file, folder, run, sheet};
use std::fs;
use std::path::PathBuf;
use thresholm::{Log, Shape, Step};

/// A point of the plane, a turn, and three numbers.
const ROOM: &[u8] =
    b"mic: 2 VGA\n e1 = 3 e2 = 4\nquarter turn: 2 VGA\n e12 = 1\none: 0 VGA\n 1\ntwo: 0 VGA\n 2\n: 0 VGA\n 4";

/// The files of one test: a rig as text and as a sheet.
struct Room {
    folder: PathBuf,
    text: String,
    rig: String,
}

fn room(test: &str) -> Room {
    let folder = folder(test);
    let text = file(&folder, "room.txt", ROOM);
    let rig = folder.join("room.rig").to_str().expect("a plain path").to_string();
    run(&["import", &text, "-o", &rig]).done();
    Room { folder, text, rig }
}

impl Room {
    fn path(&self, name: &str) -> String {
        self.folder.join(name).to_str().expect("a plain path").to_string()
    }

    /// The import of a log, which becomes `moves.log`.
    fn import(&self, log: &str, over: &str) -> Run {
        run(&["import", log, "--over", over, "-o", &self.path("moves.log")])
    }

    /// What is said of a log, after its name, by an import and by a replay. An old log stays.
    fn refused(&self, over: &str, log: impl AsRef<[u8]>) -> [String; 2] {
        let log = file(&self.folder, "moves.txt", log.as_ref());
        let old = file(&self.folder, "moves.log", b"old");
        let before = fs::read_dir(&self.folder).expect("a folder").count();
        let said = [self.import(&log, over), run(&["replay", over, &log])].map(|run| match run.status {
            1 => run.err.strip_prefix(&log).and_then(|rest| rest.strip_suffix('\n')).expect("its name").to_string(),
            _ => run.out,
        });
        assert_eq!(fs::read(old).expect("it is there"), b"old", "nothing is written");
        assert_eq!(fs::read_dir(&self.folder).expect("a folder").count(), before, "no other file is left");
        said
    }
}

#[test]
fn a_text_becomes_the_bytes_of_its_steps() {
    let room = room("log-bytes");
    let written = room.path("moves.log");
    let text = "\u{feff}# every kind\r\nright quarter turn\r\n\n  left 3 # two\nreverse\ndims 3\nhalt two";
    let log = file(&room.folder, "moves.txt", text.as_bytes());
    assert_eq!(room.import(&log, &room.text).done(), format!("{written}: 5 steps, 10 bytes\n"));
    assert_eq!(fs::read(&written).expect("a log"), [0, 1, 1, 3, 2, 0, 3, 3, 4, 3]);
    let one = file(&room.folder, "one.txt", b"dims 255");
    assert_eq!(room.import(&one, &room.rig).done(), format!("{written}: 1 step, 2 bytes\n"));
    assert_eq!(fs::read(&written).expect("a log"), [3, 255], "an old log is replaced");
    for none in [&b""[..], b"# nothing\n"] {
        let none = file(&room.folder, "none.txt", none);
        let forced = run(&["import", &none, "--over", &room.rig, "--force", "-o", &written]);
        assert_eq!(forced.done(), format!("{written}: 0 steps, 0 bytes\n"));
        assert_eq!(fs::read(&written).expect("a log"), []);
        assert_eq!(room.import(&none, &room.rig).done(), format!("{written}: 0 steps, 0 bytes\n"));
    }
    let most = file(&room.folder, "most.txt", "halt 4\n".repeat(200).as_bytes());
    assert_eq!(room.import(&most, &room.rig).done(), format!("{written}: 200 steps, 400 bytes\n"));
    let expected = Log::new([Step::Halt(4); 200]);
    assert_eq!(Log::from_bytes(&fs::read(&written).expect("a log")), expected);
}

#[test]
fn the_bytes_lead_where_the_text_leads() {
    let room = room("log-round");
    let [written, pose, again] = ["moves.log", "pose.rig", "again.rig"].map(|name| room.path(name));
    for text in [
        "",
        "reverse",
        "right 1\n\nright 1\nleft 3",
        "right 1\ndims 3\nright 4",
        "dims 10\nreverse",
        "right 3\nhalt 0\nreverse",
    ] {
        let log = file(&room.folder, "moves.txt", text.as_bytes());
        for rig in [&room.text, &room.rig] {
            room.import(&log, rig).done();
            let of_text = run(&["replay", rig, &log, "-o", &pose]).done();
            let of_bytes = run(&["replay", rig, &written, "-o", &again]).done();
            // Bytes have no lines; all else is alike.
            let plain = (1..9).fold(of_text, |said, line| said.replace(&format!("(line {line}: "), "("));
            assert_eq!(of_bytes.replace(&written, &log).replace(&again, &pose), plain, "{text:?}");
            assert_eq!(fs::read(&pose).expect("a sheet"), fs::read(&again).expect("a sheet"), "{text:?}");
        }
    }
}

#[test]
fn a_log_that_is_wrong_is_refused_as_by_a_replay() {
    let room = room("log-refused");
    let rule = "a line has right, left or halt and a value, reverse, or dims and a number";
    let unknown = "(write a name as it stands in the rig, or the number of a value)";
    for (log, says) in [
        ("reverse\n turn 3".to_string(), format!(":2:2: there is no step 'turn': {rule}")),
        ("halt 2\nright 5".to_string(), ":2:7: there is no value 5: they are numbered from 0 to 4".to_string()),
        ("left twenty".to_string(), format!(":1:6: no value is called 'twenty' {unknown}")),
        ("left Two".to_string(), ":1:6: no value is called 'Two' (it is written 'two')".to_string()),
        ("left".to_string(), ":1:1: after left comes a value, as in 'left 3'".to_string()),
        ("dims 256".to_string(), ":1:6: dimensions are a whole number from 0 to 255: '256'".to_string()),
        ("dims".to_string(), ":1:1: after dims comes the number of dimensions, as in 'dims 4'".to_string()),
        ("dims 3 4".to_string(), ":1:8: after dims comes one number, so '4' is too many".to_string()),
        ("\nreverse 2".to_string(), ":2:9: nothing follows reverse, so '2' is too many".to_string()),
        ("reverse\n".repeat(201), ":201:1: a log has at most 200 steps; this is one more".to_string()),
        (" ".repeat((4 << 20) + 1), ": the text is longer than 4194304 bytes".to_string()),
    ] {
        assert_eq!(room.refused(&room.text, &log), [says.clone(), says]);
    }
    let says = ":1:11: the byte 0xE9 is no part of a text (save the file as UTF-8)".to_string();
    assert_eq!(room.refused(&room.text, b"reverse # \xE9"), [says.clone(), says]);
    fs::remove_file(room.path("room.rig.names")).expect("they are there");
    let says = ":1:6: a rig sheet holds no names, so a value goes by its number: 'two' (names stand in the rig's text, or beside the sheet)";
    assert_eq!(room.refused(&room.rig, "left two"), [says, says]);
}

#[test]
fn what_is_no_text_of_a_log_is_named() {
    let room = room("log-other");
    let sheet = fs::read(&room.rig).expect("a sheet");
    for rig in [ROOM, &sheet] {
        assert_eq!(room.refused(&room.text, rig), [": this is a rig, and no log"; 2]);
    }
    let [said, _] = room.refused(&room.text, [0, 1, 2, 0]);
    assert_eq!(said, ": this is a log in bytes already, and no text to make one of");
    let says = ": byte 1: step 1 names value 5; they are numbered from 0 to 4";
    assert_eq!(room.refused(&room.text, [0, 5]), [says; 2]);
    let log = file(&room.folder, "moves.txt", b"reverse");
    let turned = room.import(&room.text, &log).refused();
    assert!(turned.starts_with(&format!("{log}:1:1: a value starts with ")), "{turned}");
    assert!(turned.ends_with(&format!(" (the rig comes after --over, and {} is one)\n", room.text)), "{turned}");
    let empty = file(&room.folder, "empty.txt", b"# nothing");
    let message = room.import(&log, &empty).refused();
    assert_eq!(message, format!("{empty}: a replay starts from value 0, and here are no values\n"));
}

#[test]
fn a_log_without_its_rig_is_explained() {
    let room = room("log-alone");
    let output = room.path("never.rig");
    let said = |text: &str| {
        let text = file(&room.folder, "moves.txt", text.as_bytes());
        run(&["import", &text, "-o", &output]).refused()
    };
    let hint = " (a log is imported with --over and its rig)\n";
    for text in ["reverse", "\u{feff}# a log: it turns\n\n left quarter turn # a turn: 1", "dims 3\nhalt 2"] {
        let message = said(text);
        assert!(message.contains(": a value starts with a line such as ") && message.ends_with(hint), "{message}");
    }
    for text in ["left microphone: 3 PGA\n 1 2", "left mic 3 PGA", "mic: 0 VGA\n 1\nleft 3", "7", "lefty 3"] {
        assert!(!said(text).ends_with(hint), "{text:?}");
    }
    assert!(!PathBuf::from(output).exists(), "nothing is written");
}

#[test]
fn nothing_takes_the_place_of_a_good_log() {
    let room = room("log-good");
    let empty = file(&room.folder, "none.txt", b"# nothing\n");
    let one = sheet(&[Shape::default()], &[7]);
    for (old, called) in
        [(&[2, 0, 3, 4][..], "a log of 2 steps"), (&[0; 6], "a log of 3 steps"), (&one, "a rig sheet of 1 value")]
    {
        let log = file(&room.folder, "moves.log", old);
        let why = format!("this is {called}, and {empty} has no steps: it is not replaced without --force");
        assert_eq!(room.import(&empty, &room.rig).refused(), format!("{log}: {why}\n"));
        assert_eq!(fs::read(&log).expect("it is there"), old);
        run(&["import", &empty, "--over", &room.rig, "-o", &log, "--force"]).done();
        assert_eq!(fs::read(&log).expect("it is there"), []);
    }
    file(&room.folder, "moves.log", b"neither");
    room.import(&empty, &room.rig).done();
}

#[test]
fn neither_the_text_nor_the_rig_is_overwritten() {
    let room = room("log-kept");
    let log = file(&room.folder, "moves.txt", b"right 1");
    for rig in [&room.text, &room.rig] {
        let before = [rig, &log].map(|path| fs::read(path).expect("it is there"));
        for (output, called) in [(rig, "rig"), (&log, "text")] {
            let roundabout = output.replace("log-kept/", "log-kept/../log-kept/");
            for output in [output, &roundabout] {
                let message = run(&["import", &log, "--over", rig, "-o", output]).refused();
                let why = format!("this is the {called} itself, and it is not overwritten (write to another file)");
                assert_eq!(message, format!("{output}: {why}\n"));
            }
        }
        assert_eq!([rig, &log].map(|path| fs::read(path).expect("it is there")), before);
    }
    let nowhere = room.path("none/moves.log");
    let message = run(&["import", &log, "--over", &room.rig, "-o", &nowhere]).refused();
    assert!(message.starts_with(&format!("{nowhere}: it cannot be written: ")), "{message}");
}
