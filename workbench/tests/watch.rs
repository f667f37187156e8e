//! `channel-check watch`, run as a program: what it says as text.

mod folder;
mod watched;

use std::collections::BTreeSet;
use std::io::Write;
use std::process::Stdio;

use folder::{text, tool, Folder};
use watched::{printed, A_TO_THE_END};
use workbench::generate::Written;
use workbench::reference::document::Form;
use workbench::reference::print::print;
use workbench::samples::{a_with, a_without_tables, A, RELAY, SERVER, TWO_SENDERS};

/// The moves that a run tells at its end.
fn replay(shown: &str) -> &str {
    let last = shown.lines().last().expect("a last line");
    last.strip_prefix("replay: ").expect("the moves to replay")
}

#[test]
fn listing_a_replayed_to_its_end() {
    let shown = printed("replay", A, &["--replay", A_TO_THE_END], "", 0);
    assert!(
        shown.starts_with(
            "\
f: a run begins
  thread 0   row 0    [row 0 [bind 0 [unit] 1]]  own move
    1) thread 0, own move
move 1: thread 0 from row 0
"
        ),
        "{shown}"
    );
    assert!(
        shown.ends_with(
            "\
move 4: thread 1 from row 3
  thread 0   row 6    [row 6 [bind 5 [send 1 0] 7]]  own move
  thread 1   row 4    [row 4 [bind 4 [sync 3] 5]]    waits to receive on channel row 1 #1
  channel row 1 #1, to receive: thread 1
    1) thread 0, own move
move 5: thread 0 from row 6
  thread 0   row 7    [row 7 [bind 6 [sync 5] 8]]  sends on channel row 1 #1, to thread 1
  thread 1   row 4    [row 4 [bind 4 [sync 3] 5]]  receives on channel row 1 #1, from thread 0
  channel row 1 #1, to send: thread 0; to receive: thread 1
    1) thread 0 sends to thread 1 on channel row 1 #1
move 6: thread 0 to thread 1 on channel row 1 #1: unit
  thread 0   row 8    [row 8 [result 6]]  done
  thread 1   row 5    [row 5 [result 4]]  done
  1 channel without a thread
  no move is left
after 6 moves no move is left
  all 2 threads are done
1 message:
    1. thread 0 to thread 1 on channel row 1 #1: unit
replay: 0,0,0,1,0,0+1
"
        ),
        "{shown}"
    );
    assert!(shown.contains("move 3: thread 0 from row 2, and thread 1 is born\n"));
}

#[test]
fn random_runs_can_be_replayed() {
    let mut lists = BTreeSet::new();
    for seed in 0..12 {
        let random = ["--random", &seed.to_string()];
        let shown = printed("random", A, &random, "", 0);
        assert!(shown.contains("after 6 moves no move is left\n  all 2 threads are done\n"));
        assert_eq!(printed("random", A, &random, "", 0), shown);
        let moves = replay(&shown);
        assert_eq!(printed("random", A, &["--replay", moves], "", 0), shown);
        lists.insert(moves.to_string());
    }
    // After the birth either thread may go first.
    assert_eq!(lists.len(), 2, "{lists:?}");
    // A longer run, in which threads meet on channels that were sent.
    let random = ["--random", "3", "--moves", "120"];
    let shown = printed("long", SERVER, &random, "", 0);
    assert!(shown.contains(" on channel row 0 #1: channel row 10 #1\n"));
    assert!(shown.contains(" on channel row 10 #2: unit\n"));
    let moves = replay(&shown);
    assert_eq!(printed("long", SERVER, &["--replay", moves], "", 0), shown);
}

#[test]
fn no_more_moves_are_made_than_asked_for() {
    let made = |moves: &str| {
        let words = ["--random", "1", "--moves", moves];
        let shown = printed("moves", A, &words, "", 0);
        shown.matches("\nmove ").count()
    };
    assert_eq!(
        ["0", "1", "4", "6", "7", "900"].map(made),
        [0, 1, 4, 6, 6, 6]
    );
    let shown = printed("moves", A, &["--random", "1", "--moves", "3"], "", 0);
    let end = "after 3 moves, with 2 moves left\nno message went\nreplay: 0,0,0\n";
    assert!(shown.ends_with(end), "{shown}");
}

#[test]
fn moves_are_chosen_by_their_numbers() {
    // The second of the two moves is that of the thread just born.
    let shown = printed("chosen", A, &[], "1\n1\n1\n2\n1\n1\n", 0);
    let replayed = printed("chosen", A, &["--replay", A_TO_THE_END], "", 0);
    assert_eq!(shown, replayed);
    // Nothing is made after `q`, and a last line may lack its end.
    for input in ["1\n1\nq\n1\n", "1\n1", " 1 \n1\nquit\n"] {
        assert_eq!(
            replay(&printed("chosen", A, &[], input, 0)),
            "0,0",
            "{input:?}"
        );
    }
    assert!(!shown.contains('\x1b') && !shown.contains("move> "));
}

#[test]
fn an_unknown_line_gives_a_hint() {
    for word in [
        "",
        "x",
        "0",
        "2",
        "-1",
        "1+0",
        "1 1",
        "99999999999999999999",
        "\u{e9}",
    ] {
        let shown = printed("hint", A, &[], &format!("{word}\n1\n"), 0);
        let hints = shown.matches("1 makes the move; u undoes the last, q quits\n");
        assert_eq!((hints.count(), replay(&shown)), (1, "0"), "{word:?}");
    }
    let shown = printed("hint", A, &[], "1\n1\n1\n3\n", 0);
    assert!(shown.contains("a number from 1 to 2 makes a move; u undoes"));
    let shown = printed("hint", A, &[], "1\n1\n1\n1\n1\n1\n1\n", 0);
    assert!(shown.contains("no move is left; u undoes the last, q quits\n"));
}

#[test]
fn a_move_is_undone() {
    let shown = printed("undo", A, &[], "u\n1\n1\n1\nu\nundo\n1\n", 0);
    assert!(shown.contains("there is no move to undo\n"));
    assert_eq!(replay(&shown), "0,0");
    let states: Vec<&str> = shown.split("move ").collect();
    // After both are undone the run stands where it stood after the first move.
    let after = |moves: &str| {
        let found = states.iter().find_map(|state| state.strip_prefix(moves));
        found
            .unwrap_or_else(|| panic!("{moves} in {shown}"))
            .to_string()
    };
    assert_eq!(after("2 is undone\n"), after("1: thread 0 from row 0\n"));
    assert_eq!(after("3 is undone\n"), after("2: thread 0 from row 1\n"));
    // From the end, and then another way: what was refused before is tried anew.
    let shown = printed("undo", A, &[], "1\n1\n1\n2\n1\n1\nu\nu\nu\n1\n1\n1\n", 0);
    assert_eq!(replay(&shown), "0,0,0,0,1,0+1");
    assert!(shown.contains("  all 2 threads are done\n1 message:\n"));
}

#[test]
fn who_waits_for_ever_is_told() {
    let mut program = Written::new();
    let channel = program.chan();
    let received = program.receive(channel);
    program.result(received);
    let file = String::from_utf8(print(&program.document())).unwrap();
    let shown = printed("deadlock", &file, &["--random", "1"], "", 0);
    let end = "\
after 2 moves no move is left
  thread 0 waits for ever at row 2 to receive on channel row 0 #1
no message went
replay: 0,0
";
    assert!(shown.ends_with(end), "{shown}");
    assert!(shown.contains("  channel row 0 #1, to receive: thread 0\n"));
    // Two senders for one receiver, which takes one message.
    let mut program = Written::new();
    let channel = program.chan();
    for _ in 0..2 {
        program.spawn(|thread| {
            let sent = thread.send(channel, channel);
            thread.result(sent);
        });
    }
    let received = program.receive(channel);
    program.result(received);
    let file = String::from_utf8(print(&program.document())).unwrap();
    let shown = printed("rivals", &file, &["--replay", "0,0,0,0,1,2,2+0"], "", 0);
    assert!(shown.contains(
        "    1) thread 1 sends to thread 0 on channel row 0 #1\n    \
         2) thread 2 sends to thread 0 on channel row 0 #1\n"
    ));
    assert!(shown.contains("from threads 1, 2\n"));
    assert!(shown.contains(
        "  threads 0, 2 are done\n  \
         thread 1 waits for ever at row 3 to send on channel row 0 #1\n1 message:\n    \
         1. thread 2 to thread 0 on channel row 0 #1: channel row 0 #1\n"
    ));
}

/// A program of one form on a unit value, and a result.
fn on_unit(form: impl FnOnce(&mut Written, usize) -> usize) -> String {
    let mut program = Written::new();
    let unit = program.unit();
    let name = form(&mut program, unit);
    program.result(name);
    String::from_utf8(print(&program.document())).unwrap()
}

#[test]
fn who_is_stuck_is_told_and_why() {
    let case = on_unit(|program, unit| {
        let branch = |inside: &mut Written, name: usize| inside.result(name);
        program.case(unit, branch, branch)
    });
    let pair = on_unit(|program, pair| program.bind(Form::First { pair }));
    let apply = on_unit(|program, unit| program.apply(unit, unit));
    let sync = on_unit(|program, event| program.bind(Form::Sync { event }));
    let send = on_unit(|program, unit| program.send(unit, unit));
    for (file, row, why) in [
        (&case, 1, "name 0 has unit, which is neither left nor right"),
        (&pair, 1, "name 0 has unit, which is no pair"),
        (&apply, 1, "name 0 has unit, which is no function"),
        (
            &sync,
            1,
            "name 0 has unit, which is neither a send nor a receive",
        ),
        (
            &send,
            2,
            "its event is on name 0, which has unit and no channel",
        ),
    ] {
        let shown = printed("stuck", file, &["--random", "1"], "", 0);
        assert!(shown.contains(&format!("  stuck: {why}\n")), "{shown}");
        let end = format!("no move is left\n  thread 0 is stuck at row {row}: {why}\n");
        assert!(shown.contains(&end), "{shown}");
    }
}

#[test]
fn a_run_that_comes_to_a_limit() {
    let shown = printed("limit", RELAY, &["--random", "2"], "", 0);
    let moves = replay(&shown).to_string();
    assert!(
        shown.contains(" no move is left within the limits\n"),
        "{moves}"
    );
    assert!(shown.contains(" by the limits of cells, frames and threads\n"));
    assert!(!shown.contains("for ever"));
    // A move that the limits forbid is 31; others are 30, as everywhere.
    let reasons = ["0", "1", "0+1", "1+0", "2"].map(|made| {
        let moves = format!("{moves},{made}");
        let shown = printed("limit", RELAY, &["--replay", &moves], "", 1);
        let last = shown.lines().find_map(|line| line.split_once(": refused "));
        last.expect("a refusal").1.to_string()
    });
    let too_large = "31: the move needs more cells, frames or threads than there are";
    assert!(reasons.iter().any(|reason| reason == too_large));
    assert_eq!(reasons[4], "30: the run rules do not allow the move");
}

#[test]
fn a_move_that_is_refused_ends_the_run() {
    for (moves, refused) in [
        ("0,0,0,1+0,0", "move 4, 1+0: refused 30"),
        ("0,0,0,1,0,1+0", "move 6, 1+0: refused 30"),
        ("0,0,0,1,0,0", "move 6, 0: refused 30"),
        ("1", "move 1, 1: refused 30"),
        ("0,64", "move 2, 64: refused 30"),
        ("0,0,0,1,0,0+1,0+1", "move 7, 0+1: refused 30"),
    ] {
        let shown = printed("refused", A, &["--replay", moves], "", 1);
        let told = format!("{refused}: the run rules do not allow the move\n");
        assert!(shown.contains(&told), "{shown}");
        // What was made before it can be replayed.
        let made = replay(&shown);
        assert!(moves.starts_with(made) && made.len() < moves.len());
        printed("refused", A, &["--replay", made], "", 0);
    }
}

#[test]
fn a_file_that_cannot_be_loaded_is_refused_as_check_does() {
    let folder = Folder::with("load", a_with("[row 8 [result 6]]", "[row 8 [result 3]]"));
    for (words, check) in [
        (&[] as &[&str], &["check"] as &[&str]),
        (&["--json"], &["check", "--json"]),
        (&["--svg"], &["check"]),
    ] {
        let output = folder.watch(words, "1\n");
        let mut command = tool();
        let checked = command.current_dir(&folder.path).args(check).arg("f");
        let checked = checked.output().unwrap();
        assert_eq!(output.status.code(), Some(1));
        // Where a picture is asked for, standard output stays empty.
        let (told, other) = match words {
            ["--svg"] => (&output.stderr, &output.stdout),
            _ => (&output.stdout, &output.stderr),
        };
        assert_eq!(text(told), text(&checked.stdout));
        assert!(other.is_empty());
    }
    let gone = tool()
        .args(["watch", "--random", "1", "no-such-file"])
        .output()
        .unwrap();
    assert_eq!(gone.status.code(), Some(2));
}

#[test]
fn what_judge_alone_refuses_is_watched_with_a_note() {
    let words = ["--replay", A_TO_THE_END];
    let expected = printed("judged", A, &words, "", 0);
    let output = Folder::with("judged", a_without_tables()).watch(&words, "");
    assert_eq!(output.status.code(), Some(0));
    assert_eq!(text(&output.stdout), expected);
    assert_eq!(
        text(&output.stderr),
        "channel-check: f: check refuses this file with refusal 10 at line 2: the tables break the \
         flow rule of this row; a run needs no tables, so it can be watched\n"
    );
    // A false claim.
    let file = TWO_SENDERS.replace("fan-in", "one-shot");
    let output = Folder::with("claimed", file).watch(&["--random", "1"], "");
    assert_eq!(output.status.code(), Some(0));
    assert!(text(&output.stderr).contains("refusal 11 at line "));
    // Nothing is noted of a file that is accepted.
    let output = Folder::with("claimed", A).watch(&words, "");
    assert!(output.stderr.is_empty());
}

#[test]
fn bad_usage_is_told() {
    let cases: [(&[&str], &str); 13] = [
        (&["watch"], "no file given"),
        (&["watch", "f", "g"], "watch takes one file, not 2"),
        (&["watch", "--diff", "f"], "unknown option `--diff`"),
        (&["watch", "f", "--random"], "--random needs a value"),
        (
            &["watch", "--random", "x", "f"],
            "--random needs a number, not `x`",
        ),
        (
            &["watch", "--random", "", "f"],
            "--random needs a number, not ``",
        ),
        (
            &["watch", "--random", "1", "--moves", "-1", "f"],
            "--moves needs a number, not `-1`",
        ),
        (
            &["watch", "--moves", "3", "f"],
            "--moves goes with --random",
        ),
        (&["watch", "--replay", "0,,1", "f"], "`` is no move"),
        (
            &["watch", "--replay", "0,1+", "f"],
            "`1+` is no move: it is THREAD or SENDER+RECEIVER",
        ),
        (
            &["watch", "--random", "1", "--replay", "0", "f"],
            "do not go together",
        ),
        (
            &["watch", "--json", "--svg", "f"],
            "--json and --svg do not go together",
        ),
        (&["watch", "-"], "so the file cannot be `-`"),
    ];
    let folder = Folder::new("watch usage");
    for (words, message) in cases {
        let output = folder.run(words);
        assert_eq!(output.status.code(), Some(2), "{words:?}");
        assert!(output.stdout.is_empty());
        let stderr = text(&output.stderr);
        assert!(stderr.contains(message), "{message} in {stderr}");
        assert!(stderr.ends_with("\nsee `channel-check help watch`\n"));
    }
    let help = folder.run(&["watch", "--help"]);
    assert_eq!(help.status.code(), Some(0));
    assert!(text(&help.stdout).contains("  --replay MOVES  "));
}

#[test]
fn the_file_may_be_standard_input_where_nobody_is_asked() {
    let mut child = tool()
        .args(["watch", "--replay", A_TO_THE_END, "-"])
        .stdin(Stdio::piped())
        .stdout(Stdio::piped())
        .spawn()
        .unwrap();
    let mut stdin = child.stdin.take().unwrap();
    stdin.write_all(A.as_bytes()).unwrap();
    drop(stdin);
    let output = child.wait_with_output().unwrap();
    assert_eq!(output.status.code(), Some(0));
    assert_eq!(replay(text(&output.stdout)), A_TO_THE_END);
}
