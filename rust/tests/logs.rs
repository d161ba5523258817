//! `thresholm::log`: bytes and texts of logs read and written back, and faults with their places.
use thresholm::log::{Listing, Log, MAX_STEPS, Step};
use thresholm::rig::{Fault, Rig};
use thresholm::{Error, Sheet};

fn rig() -> Rig {
    let text = "left ear: 0 VGA\n1\nslide: 0 VGA\n2\nSlide back: 0 VGA\n3\nmic: 0 VGA\n4\nmic: 0 VGA\n5\n7: 0 VGA\n6\n3 4: 0 VGA\n7\n: 0 VGA\n8";
    text.parse().expect("a good rig")
}

#[track_caller]
fn fault(text: &str) -> String {
    Listing::over_rig(text, &rig()).expect_err("a fault").to_string()
}

#[test]
fn every_step_has_its_bytes_and_its_text() {
    let all = [
        (Step::Right(3), [0, 3], "right 3", Some(3)),
        (Step::Left(255), [1, 255], "left 255", Some(255)),
        (Step::Reverse, [2, 0], "reverse", None),
        (Step::Dims(4), [3, 4], "dims 4", None),
        (Step::Halt(0), [4, 0], "halt 0", Some(0)),
    ];
    for (step, bytes, text, value) in all {
        assert_eq!((step.to_bytes(), step.to_string(), step.value()), (bytes, text.to_string(), value));
        assert_eq!((Step::from_bytes(bytes), text.parse()), (Ok(step), Ok(Log::new([step]).unwrap())));
    }
    assert_eq!(Step::from_bytes([2, 9]), Ok(Step::Reverse));
    assert_eq!(format!("[{:>9}]", Step::Dims(4)), "[   dims 4]");
    for kind in 5..=255 {
        assert_eq!(Step::from_bytes([kind, 0]), Err(Error::BadLog));
    }
}

#[test]
fn every_log_reads_back_from_its_bytes_and_its_text() {
    let mut state = 9_u64;
    let mut next = |end: u64| {
        state = state.wrapping_mul(0x5851_F42D_4C95_7F2D).wrapping_add(0x1405_7B7E_F767_814F);
        ((state >> 33) % end) as u8
    };
    for count in (0..=MAX_STEPS).step_by(8) {
        let steps: Vec<Step> = (0..count).map(|_| Step::from_bytes([next(5), next(256)]).unwrap()).collect();
        let log = Log::new(steps).unwrap();
        assert_eq!((log.len(), log.is_empty()), (count, count == 0));
        assert_eq!(Log::from_bytes(&log.to_bytes()), Ok(log.clone()));
        assert_eq!(log.to_string().parse(), Ok(log.clone()));
        assert_eq!(log.to_string().lines().count(), count);
    }
}

#[test]
fn a_log_has_at_most_200_steps() {
    let mut log = Log::new([Step::Reverse; MAX_STEPS]).unwrap();
    let full = log.clone();
    assert_eq!(log.push(Step::Reverse), Err(Error::BadLog));
    assert_eq!(log, full);
    assert_eq!(log.to_cue(0), Some(Log::default()));
    assert_eq!((log.to_cue(200), log.to_cue(201), log.to_cue(usize::MAX)), (Some(full), None, None));
    let text = format!("# long\n{log}\n  halt 0 # one more");
    assert_eq!(fault(&text), "203:3: a log has at most 200 steps; this is one more");
    assert_eq!(text.parse::<Log>().unwrap_err().line(), 203);
}

#[test]
fn a_text_has_comments_empty_lines_and_names() {
    let text = "\u{feff}# moves\r\n\r\n  right slide\r\n\tleft   007# seven\n\nreverse\nhalt Slide back  # or 2\ndims 010\nright 3 4\nleft left ear";
    let listing = Listing::over_rig(text, &rig()).unwrap();
    let steps =
        [Step::Right(1), Step::Left(7), Step::Reverse, Step::Halt(2), Step::Dims(10), Step::Right(6), Step::Left(0)];
    assert_eq!((listing.log().steps(), listing.lines()), (&steps[..], &[3, 4, 6, 7, 8, 9, 10][..]));
    let numbers = listing.log().to_string();
    assert_eq!(Listing::over_sheet(&numbers, rig().sheet()).map(Listing::into_log), Ok(listing.into_log()));
    for empty in ["", "\n\n", "# nothing", " \t\r\n#"] {
        assert_eq!(empty.parse(), Ok(Log::default()));
        assert_eq!(Listing::over_rig(empty, &rig()), Ok(Listing::default()));
    }
}

#[test]
fn faults_have_their_line_and_column() {
    let rule = "a line has right, left or halt and a value, reverse, or dims and a number";
    for (text, says) in [
        ("rigth 3", format!("1:1: there is no step 'rigth': {rule}")),
        ("reverse\n\n  Right 3", format!("3:3: there is no step 'Right': {rule}")),
        ("é 3", format!("1:1: there is no step 'é': {rule}")),
        ("right", "1:1: after right comes a value, as in 'right 3'".to_string()),
        (" halt # 3", "1:2: after halt comes a value, as in 'halt 3'".to_string()),
        ("reverse 3", "1:9: nothing follows reverse, so '3' is too many".to_string()),
        ("dims", "1:1: after dims comes the number of dimensions, as in 'dims 4'".to_string()),
        ("dims 4 5", "1:8: after dims comes one number, so '5' is too many".to_string()),
        ("dims four", "1:6: dimensions are a whole number from 0 to 255: 'four'".to_string()),
        ("dims +4", "1:6: dimensions are a whole number from 0 to 255: '+4'".to_string()),
        ("dims 256", "1:6: dimensions are a whole number from 0 to 255: '256'".to_string()),
    ] {
        assert_eq!(fault(text), says, "{text:?}");
        assert_eq!(text.parse::<Log>().map_err(|fault| fault.to_string()), Err(says), "{text:?}");
    }
    let bytes = Listing::over_rig(b"reverse # \xE9", &rig()).unwrap_err();
    assert_eq!(bytes.to_string(), "1:11: the byte 0xE9 is no part of a text (save the file as UTF-8)");
}

#[test]
fn a_value_that_is_not_there_is_a_fault() {
    let as_it_stands = "(write a name as it stands in the rig, or the number of a value)";
    for (text, says) in [
        ("halt 0\nright 8", "2:7: there is no value 8: they are numbered from 0 to 7".to_string()),
        (
            "left 99999999999999999999",
            "1:6: there is no value 99999999999999999999: they are numbered from 0 to 7".to_string(),
        ),
        ("left slyde", format!("1:6: no value is called 'slyde' {as_it_stands}")),
        ("left -1", format!("1:6: no value is called '-1' {as_it_stands}")),
        ("left  slide  back", "1:7: no value is called 'slide  back' (it is written 'Slide back')".to_string()),
        ("right mic", "1:7: value 3 and value 4 are both called 'mic' (name it by its number)".to_string()),
        ("right 2 3", "1:9: a line has one step, and a step one value, so '3' is too many".to_string()),
    ] {
        assert_eq!(fault(text), says, "{text:?}");
    }
    // Digits are a number, also where a value has them for a name.
    assert_eq!(Listing::over_rig("left 7", &rig()).unwrap().log().steps(), [Step::Left(7)]);
}

#[test]
fn without_names_values_go_by_their_numbers() {
    let words = |fault: Fault| fault.to_string();
    let none = Sheet::new([], []).unwrap();
    let over = |text: &str, sheet: &Sheet| Listing::over_sheet(text, sheet).map_err(words);
    let sheet = rig().into_sheet();
    let no_names = "1:7: a rig sheet holds no names, so a value goes by its number: 'slide' (names stand in the rig's text, or beside the sheet)";
    assert_eq!(over("right slide", &sheet), Err(no_names.to_string()));
    assert_eq!(over("right 8", &sheet), Err("1:7: there is no value 8: they are numbered from 0 to 7".to_string()));
    assert_eq!(over("right 0", &none), Err("1:7: there is no value 0: the rig has none".to_string()));
    let too_many = "1:9: a line has one step, and a step one value, so '4 5' is too many";
    assert_eq!(over("right 3 4 5", &sheet), Err(too_many.to_string()));
    let alone = |text: &str| text.parse::<Log>().map_err(words);
    assert_eq!(alone("right slide"), Err("1:7: a value goes by its number here: 'slide'".to_string()));
    assert_eq!(alone("halt 256"), Err("1:6: there is no value 256: a rig sheet has at most 64".to_string()));
    assert_eq!(
        alone("halt 3 4"),
        Err("1:8: a line has one step, and a step one value, so '4' is too many".to_string())
    );
}

/// Pieces that texts are made of, and some that they are not.
const PIECES: [&str; 24] = [
    "right ", "left ", "halt ", "reverse", "dims ", "\n", "\n", "\n", " ", "#", "0", "1", "2", "8", "255", "256",
    "slide", "left ear", "mic", "-", "é", "\r", "\t", "\0",
];

#[test]
fn every_text_is_answered() {
    let (mut state, mut good, rig) = (7_u64, 0, rig());
    for round in 0..20_000 {
        let pieces = (0..round % 12).map(|_| {
            state = state.wrapping_mul(0x5851_F42D_4C95_7F2D).wrapping_add(0x1405_7B7E_F767_814F);
            PIECES[(state >> 33) as usize % PIECES.len()]
        });
        let text: String = pieces.collect();
        match Listing::over_rig(&text, &rig) {
            Ok(listing) => {
                assert_eq!(listing.log().to_string().parse(), Ok(listing.log().clone()), "{text:?}");
                assert_eq!(listing.lines().len(), listing.log().len(), "{text:?}");
                assert!(rig.sheet().replay(listing.log()).is_ok(), "{text:?}");
                good += usize::from(!listing.log().is_empty());
            }
            Err(fault) => {
                let line = text.split('\n').nth(fault.line() - 1).expect("a line of the text");
                assert!((1..=line.chars().count() + 1).contains(&fault.column()), "{text:?}: {fault}");
            }
        }
    }
    assert!(good > 300, "{good} are read");
}
