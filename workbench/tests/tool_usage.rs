//! How the tool is called: help, version, options before and after the command,
//! colours, quiet, and what is said of words that it does not know.

mod folder;

use std::ffi::OsStr;
use std::os::unix::ffi::OsStrExt;

use folder::{text, tool, Folder};
use workbench::samples::A;

const COMMANDS: [&str; 8] = [
    "check", "infer", "preview", "replace", "watch", "picture", "explain", "help",
];

/// What is said of words that are not understood: one or two lines.
fn mistake(words: &[&str]) -> String {
    let output = Folder::new("usage").put("a.txt", A).run(words);
    assert_eq!(output.status.code(), Some(2), "{words:?}");
    assert!(output.stdout.is_empty(), "{words:?}");
    let told = text(&output.stderr);
    assert!(told.starts_with("channel-check: "), "{told}");
    assert_eq!(told.lines().count(), 2, "{told}");
    told.to_string()
}

#[test]
fn unknown_words_have_the_nearest_known_one() {
    for (words, told) in [
        (
            &["chekc", "f"] as &[&str],
            "channel-check: unknown command `chekc`; did you mean `check`?\n\
             see `channel-check help`\n",
        ),
        (
            &["frobnicate"],
            "channel-check: unknown command `frobnicate`\nsee `channel-check help`\n",
        ),
        (
            &["help", "wacth"],
            "channel-check: unknown command `wacth`; did you mean `watch`?\n\
             see `channel-check help`\n",
        ),
        (
            &["a.txt"],
            "channel-check: unknown command `a.txt`; did you mean `check a.txt`?\n\
             see `channel-check help`\n",
        ),
        (
            &["check", "--jsno", "f"],
            "channel-check: unknown option `--jsno` of check; did you mean `--json`?\n\
             see `channel-check help check`\n",
        ),
        (
            &["--colour", "always", "check", "f"],
            "channel-check: unknown option `--colour`; did you mean `--color`?\n\
             see `channel-check help`\n",
        ),
        // An option of another command, before and after the command.
        (
            &["infer", "--json", "f"],
            "channel-check: unknown option `--json` of infer\nsee `channel-check help infer`\n",
        ),
        (
            &["--json", "infer", "f"],
            "channel-check: unknown option `--json` of infer\nsee `channel-check help infer`\n",
        ),
    ] {
        assert_eq!(mistake(words), told, "{words:?}");
    }
}

#[test]
fn bad_usage_is_told() {
    for (words, message) in [
        (&[] as &[&str], "no command given"),
        (&["--quiet"], "no command given"),
        (&["check"], "no file given"),
        (&["check", "--json"], "no file given"),
        (&["infer"], "no file given"),
        (&["infer", "f", "g"], "infer takes one file, not 2"),
        (&["help", "check", "infer"], "help takes one command, not 2"),
        (&["check", "--json=yes", "f"], "--json takes no value"),
        (&["check", "f", "--color"], "--color needs a value"),
        (
            &["check", "--color", "pink", "f"],
            "--color is auto, always or never, not `pink`",
        ),
        (&["check", "--color=", "f"], "always or never, not ``"),
        (&["check", "-x", "f"], "unknown option `-x` of check"),
    ] {
        let told = mistake(words);
        assert!(told.contains(message), "{message} in {told}");
    }
}

#[test]
fn words_that_are_told_cannot_steer_a_terminal() {
    let told = mistake(&["ch\u{1b}[31m\n"]);
    assert!(told.contains("unknown command `ch\\u{1b}[31m\\n`"));
    let told = mistake(&["check", "--\u{7}", "f"]);
    assert!(told.contains("unknown option `--\\u{7}` of check"));
    let output = tool()
        .args([OsStr::from_bytes(b"--\xff"), OsStr::new("check")])
        .output();
    let told = output.unwrap().stderr;
    assert!(text(&told).contains("unknown option `--\\xff`\n"));
}

#[test]
fn help_lists_the_commands_and_has_a_page_for_each() {
    let folder = Folder::new("help");
    let shown = |words: &[&str]| {
        let output = folder.run(words);
        assert_eq!(output.status.code(), Some(0), "{words:?}");
        assert!(output.stderr.is_empty());
        text(&output.stdout).to_string()
    };
    let list = shown(&["help"]);
    assert!(list.starts_with("usage: channel-check COMMAND "));
    for words in [&["--help"] as &[&str], &["-h"]] {
        assert_eq!(shown(words), list);
    }
    let commands = list.split("\ncommands:\n").nth(1).unwrap();
    let listed: Vec<&str> = commands
        .lines()
        .take_while(|line| !line.is_empty())
        .map(|line| line.split_whitespace().next().unwrap())
        .collect();
    assert_eq!(listed, COMMANDS);
    for option in ["--color WHEN", "--quiet", "--help", "--version"] {
        assert!(list.contains(option), "{option}");
    }
    for command in COMMANDS {
        let page = shown(&["help", command]);
        let usage = format!("usage: channel-check {command} ");
        assert!(page.starts_with(&usage), "{page}");
        assert!(page.contains("\nExit status: 0 "));
        for words in [[command, "--help"], [command, "-h"], ["--help", command]] {
            assert_eq!(shown(&words), page);
        }
    }
    assert!(shown(&["help", "watch"]).contains("\n  --replay MOVES  "));
}

#[test]
fn the_version_is_that_of_the_package() {
    let folder = Folder::new("version");
    for words in [&["--version"] as &[&str], &["-V"], &["check", "--version"]] {
        let output = folder.run(words);
        assert_eq!(output.status.code(), Some(0));
        let version = format!("channel-check {}\n", env!("CARGO_PKG_VERSION"));
        assert_eq!(text(&output.stdout), version);
    }
}

#[test]
fn options_stand_before_or_after_the_command() {
    let folder = Folder::new("places");
    folder.put("a.txt", A).put("-a", A);
    let expected = folder.run(&["check", "--json", "a.txt"]).stdout;
    assert!(expected.starts_with(b"{"));
    for words in [["--json", "check", "a.txt"], ["check", "a.txt", "--json"]] {
        assert_eq!(folder.run(&words).stdout, expected);
    }
    // A value before the command is not taken for the command.
    let after = folder.run(&["watch", "--replay", "0,0", "a.txt"]);
    assert_eq!(after.status.code(), Some(0));
    for words in [
        &["--replay", "0,0", "watch", "a.txt"] as &[&str],
        &["watch", "a.txt", "--replay=0,0"],
    ] {
        assert_eq!(folder.run(words).stdout, after.stdout);
    }
    // What follows `--` is no option.
    let dash = folder.run(&["check", "--", "-a"]);
    assert!(text(&dash.stdout).starts_with("-a: accepted"));
}

#[test]
fn quiet_leaves_the_status_and_the_problems() {
    let folder = Folder::new("quiet");
    folder.put("good", A).put("bad", "[dispenser 1]\n");
    for (words, status) in [
        (&["check", "good"] as &[&str], 0),
        (&["check", "good", "bad"], 1),
        (&["check", "--json", "bad"], 1),
        (&["infer", "good"], 0),
        (&["preview", "good", "4", "[]"], 1),
        (&["replace", "good", "4", "[]"], 0),
        (&["watch", "--random", "1", "good"], 0),
        (&["watch", "bad"], 1),
    ] {
        for quiet in ["--quiet", "-q"] {
            let output = folder.run(&[words, &[quiet]].concat());
            assert_eq!(output.status.code(), Some(status), "{words:?}");
            assert!(output.stdout.is_empty(), "{words:?}");
            assert!(output.stderr.is_empty(), "{words:?}");
        }
    }
    for words in [
        &["-q", "check", "gone"] as &[&str],
        &["-q", "check", "--json", "gone"],
    ] {
        let output = folder.run(words);
        assert_eq!(output.status.code(), Some(2));
        assert!(output.stdout.is_empty());
        let told = "channel-check: gone: not checked: there is no such file\n";
        assert_eq!(text(&output.stderr), told);
    }
}

#[test]
fn colours_are_as_asked() {
    let folder = Folder::new("colours");
    folder.put("good", A).put("bad", "[dispenser 1]\n");
    let coloured = |words: &[&str], variables: &[(&str, &str)]| {
        let mut command = tool();
        command.current_dir(&folder.path).args(words);
        command.envs(variables.iter().copied());
        let output = command.output().unwrap();
        [output.stdout, output.stderr].map(|bytes| bytes.contains(&0x1b))
    };
    // No terminal.
    let all = ["check", "good", "bad", "gone"];
    assert_eq!(coloured(&all, &[]), [false, false]);
    assert_eq!(
        coloured(&[&all[..], &["--color", "auto"]].concat(), &[]),
        [false, false]
    );
    assert_eq!(
        coloured(&[&all[..], &["--color=never"]].concat(), &[]),
        [false, false]
    );
    // What is asked for in words holds against the surroundings.
    for variables in [
        &[] as &[(&str, &str)],
        &[("NO_COLOR", "1")],
        &[("TERM", "dumb")],
    ] {
        let always = [&all[..], &["--color", "always"]].concat();
        assert_eq!(coloured(&always, variables), [true, true]);
    }
    // JSON has none.
    assert_eq!(
        coloured(&["check", "--json", "--color=always", "bad"], &[]),
        [false, false]
    );
}

#[test]
fn file_names_are_escaped() {
    let folder = Folder::new("names");
    let name = OsStr::from_bytes(b"a\n\x1b[2J\xff\xc3\xa4.txt");
    std::fs::write(folder.path.join(name), A).unwrap();
    let run = |words: &[&str], name: &OsStr| {
        let mut command = tool();
        command.current_dir(&folder.path).args(words).arg(name);
        command.output().unwrap()
    };
    let shown = "a\\n\\u{1b}[2J\\xff\u{e4}.txt";
    let output = run(&["check"], name);
    let expected = format!("{shown}: accepted, 1 claim holds\n");
    assert!(text(&output.stdout).starts_with(&expected));
    // As JSON a name that is no text is escaped, and any other as it is.
    let output = run(&["check", "--json"], name);
    let begin = "{\"file\": \"a\\\\n\\\\u{1b}[2J\\\\xff\u{e4}.txt\", \"escaped\": true, ";
    assert!(text(&output.stdout).starts_with(begin));
    let other = OsStr::new("b\n\\.txt");
    std::fs::write(folder.path.join(other), A).unwrap();
    let output = run(&["check", "--json"], other);
    let begin = r#"{"file": "b\u000a\\.txt", "accepted": true, "#;
    assert!(text(&output.stdout).starts_with(begin));
    // Problems, and the other commands.
    let output = run(&["check"], OsStr::new("no\u{7}"));
    assert!(text(&output.stderr).starts_with("channel-check: no\\u{7}: not checked: "));
    let output = run(&["watch", "--replay", ""], name);
    assert!(text(&output.stdout).starts_with(&format!("{shown}: a run begins\n")));
    let output = run(&["watch", "--svg", "--replay", ""], name);
    assert!(text(&output.stdout).contains(&format!(">{shown}</text>")));
}
