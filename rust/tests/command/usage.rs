//! Help, the version, and what is not understood.
use crate::support::run;

const SUBCOMMANDS: [&str; 7] = ["import", "show", "check", "product", "replay", "drift", "diff"];

#[test]
fn help_names_every_subcommand() {
    let all = run(&["help"]).done();
    assert_eq!(run(&["--help"]).done(), all);
    assert_eq!(run(&["-h"]).done(), all);
    for subcommand in SUBCOMMANDS {
        assert!(all.contains(&format!("thresholm {subcommand} ")), "{all}");
    }
}

#[test]
fn each_subcommand_has_its_help() {
    for subcommand in SUBCOMMANDS {
        let help = run(&["help", subcommand]).done();
        assert!(help.starts_with(&format!("thresholm {subcommand} ")), "{help}");
        assert_eq!(run(&[subcommand, "--help"]).done(), help);
        assert_eq!(run(&[subcommand, "no-such-file", "-h"]).done(), help);
    }
}

#[test]
fn help_says_what_is_proved_and_what_turns() {
    let product = run(&["help", "product"]).done().replace('\n', " ");
    assert!(product.contains("Both are proved of the library's product, coefficient by coefficient, also for factors that are first brought to one shape."), "{product}");
    assert!(
        product.contains(
            "Where 3 VGA becomes PGA, e31 becomes e13 with the same number, so its sign turns; a note says so."
        ),
        "{product}"
    );
    let replay = run(&["help", "replay"]).done().replace('\n', " ");
    assert!(replay.contains("any two values that are not   scalar are equal"), "{replay}");
    assert!(replay.contains("the exit status is 0, since that is where the log leads"), "{replay}");
    let import = run(&["help", "import"]).done();
    assert!(import.contains("  $ thresholm import moves.txt --over room.txt -o moves.log\n"), "{import}");
    let check = run(&["help", "check"]).done().replace('\n', " ");
    assert!(check.contains("a number of several bytes, reported by the byte at which it starts"), "{check}");
}

#[test]
fn the_version_is_the_crates() {
    let version = format!("thresholm {}\n", env!("CARGO_PKG_VERSION"));
    assert_eq!(run(&["--version"]).done(), version);
    assert_eq!(run(&["-V"]).done(), version);
}

/// Command lines, and what is said of them.
const MISUSED: [(&[&str], &str); 59] = [
    (&[], "what shall be done?"),
    (&["mix"], "there is no subcommand 'mix'"),
    (&["-x"], "there is no subcommand '-x'"),
    (&["chekc", "a"], "there is no subcommand 'chekc' (did you mean check?)"),
    (&["help", "mix"], "there is no help for 'mix'"),
    (&["help", "dfif"], "there is no help for 'dfif' (did you mean diff?)"),
    (&["help", "show", "check"], "help takes one name, so 'check' is too many"),
    (&["import"], "the text file to read is missing"),
    (&["import", "a.txt"], "-o and the rig sheet to write are missing"),
    (&["import", "a.txt", "-o"], "after -o comes the file to write"),
    (&["import", "a.txt", "-o", "b", "-o", "c"], "-o is here twice"),
    (&["import", "a.txt", "-o", "b", "--force", "--force"], "--force is here twice"),
    (&["import", "a.txt", "b.txt", "-o", "c"], "one text file is read, so 'b.txt' is too many"),
    (&["import", "-o", "c"], "the text file to read is missing"),
    (&["import", "--over", "r", "-o", "c"], "the text file to read is missing"),
    (&["import", "a.txt", "--over", "r"], "-o and the log to write are missing"),
    (&["import", "a.txt", "-o", "c", "--over"], "after --over comes the rig of the log to read"),
    (&["import", "a.txt", "--over", "r", "--over", "s", "-o", "c"], "--over is here twice"),
    (&["import", "a.txt", "b.txt", "--over", "r", "-o", "c"], "one text file is read, so 'b.txt' is too many"),
    (&["import", "a.txt", "--over=r", "-o", "c"], "there is no option '--over=r' (write --over r)"),
    (&["import", "a.txt", "--froce", "-o", "c"], "there is no option '--froce' (did you mean --force?)"),
    (&["import", "-", "--over", "-", "-o", "c"], "standard input can be read once, so - is here too often"),
    (&["show"], "the rig sheet to read is missing"),
    (&["show", "a", "b"], "one rig sheet is read, so 'b' is too many"),
    (&["show", "-o", "a"], "there is no option '-o'"),
    (&["show", "--hlep", "a"], "there is no option '--hlep' (did you mean --help?)"),
    (&["show", "--json", "a", "--workstation"], "--workstation and --json cannot both be asked for"),
    (&["check", "--quick", "a"], "there is no option '--quick'"),
    (&["check", "--strikt", "a"], "there is no option '--strikt' (did you mean --strict?)"),
    (&["check", "--strict=1", "a"], "there is no option '--strict=1' (did you mean --strict?)"),
    (&["check"], "the rig sheet to read is missing"),
    (&["check", "--strict"], "the rig sheet to read is missing"),
    (&["check", "-", "a", "-"], "standard input can be read once, so - is here too often"),
    (&["product"], "the rig to read is missing"),
    (&["product", "a"], "a product needs two values or more"),
    (&["product", "a", "1"], "a product needs two values or more"),
    (&["product", "a", "1", "-2"], "there is no option '-2'"),
    (&["product", "a", "1", "2", "--cue", "1"], "there is no option '--cue'"),
    (&["replay"], "the rig and the log to read are missing"),
    (&["replay", "--cue", "1", "-o", "c"], "the rig and the log to read are missing"),
    (&["replay", "a"], "the log to read is missing"),
    (&["replay", "a", "b", "c"], "one rig and one log are read, so 'c' is too many"),
    (&["replay", "-", "-"], "standard input can be read once, so - is here too often"),
    (&["replay", "a", "b", "-o"], "after -o comes the file to write"),
    (&["replay", "a", "b", "-o", "c", "-o", "d"], "-o is here twice"),
    (&["replay", "a", "b", "--cue"], "after --cue comes the number of steps to replay"),
    (&["replay", "a", "b", "-o", "--json"], "after -o comes the file to write"),
    (&["replay", "a", "b", "--cue", "1", "--cue", "2"], "--cue is here twice"),
    (&["replay", "a", "b", "--cue", "one"], "a cue is a number of steps, 0 or more: 'one'"),
    (&["replay", "a", "b", "--cue", "-1"], "a cue is a number of steps, 0 or more: '-1'"),
    (&["replay", "--over", "a", "b"], "there is no option '--over'"),
    (&["replay", "a", "b", "--cue=1"], "there is no option '--cue=1' (write --cue 1)"),
    (&["diff", "a"], "two rigs are compared, and here are fewer"),
    (&["diff", "-", "-"], "standard input can be read once, so - is here too often"),
    (&["drift", "a", "b", "--unit", "mm"], "--unit is for the picture, and no --svg is here"),
    (&["--version", "x"], "nothing follows --version, so 'x' is too many"),
    (&["-V", "--version"], "nothing follows -V, so '--version' is too many"),
    (&["--help", "show"], "nothing follows --help, so 'show' is too many"),
    (&["-h", "a", "b"], "nothing follows -h, so 'a' is too many"),
];

#[test]
fn what_is_not_understood_is_explained() {
    for (arguments, says) in MISUSED {
        let message = run(arguments).misused();
        let mut lines = message.lines();
        assert_eq!(lines.next(), Some(&*format!("thresholm: {says}")), "{arguments:?}");
        assert!(lines.next().is_some_and(|line| line.starts_with("usage: thresholm ")), "{message}");
    }
}

#[test]
fn two_dashes_end_the_options() {
    assert!(run(&["show", "--", "-o"]).refused().starts_with("-o: it cannot be read: "));
    assert!(run(&["import", "-o", "c", "--", "-x"]).refused().starts_with("-x: it cannot be read: "));
}
