//! `channel-check watch`, run as a program: runs as JSON and as pictures.

mod folder;
mod json;
mod svg;
mod watched;

use std::collections::BTreeSet;

use folder::{text, Folder};
use json::{json_lines, Json};
use svg::{elements, of_class, stands_alone};
use watched::{printed, A_TO_THE_END};
use workbench::generate::Written;
use workbench::reference::print::print;
use workbench::samples::{A, SERVER, UNPACKING};

#[test]
fn json_for_machines() {
    let words = ["--json", "--replay", A_TO_THE_END];
    let lines = json_lines(&printed("json", A, &words, "", 0));
    let events: Vec<&str> = lines.iter().map(|line| line.text("event")).collect();
    assert_eq!(
        events,
        [&["begin"] as &[&str], &["move"; 6], &["end"]].concat()
    );
    assert_eq!(lines[0].text("file"), "f");
    // Each line's move was possible by the line before it.
    for pair in lines[..7].windows(2) {
        let made = Json::Text(pair[1].text("move").to_string());
        assert!(pair[0].list("moves").contains(&made), "{made:?}");
    }
    let [receive, send, meeting] = [4, 5, 6].map(|line| &lines[line]);
    let thread = &receive.list("threads")[1];
    assert_eq!(
        (thread.text("can"), thread.get("row")),
        ("receive", &Json::Number(4))
    );
    assert_eq!(thread.text("text"), "[row 4 [bind 4 [sync 3] 5]]");
    assert_eq!(thread.list("meets"), []);
    let thread = &send.list("threads")[0];
    assert_eq!(
        (thread.text("can"), thread.list("meets")),
        ("send", &[Json::Number(1)] as &[Json])
    );
    let channel = Json::read(r#"{"row": 1, "instance": 1, "sending": [0], "receiving": [1]}"#);
    assert_eq!(send.list("channels"), [channel]);
    let message = Json::read(
        r#"{"sender": 0, "receiver": 1, "channel": {"row": 1, "instance": 1}, "value": "unit"}"#,
    );
    assert_eq!(meeting.get("message"), &message);
    assert_eq!(lines[3].get("born"), &Json::Number(1));
    let end = &lines[7];
    assert_eq!(end.list("done"), [Json::Number(0), Json::Number(1)]);
    assert_eq!(end.list("messages"), [message]);
    assert_eq!(
        (end.text("replay"), end.get("refused")),
        (A_TO_THE_END, &Json::Null)
    );
}

#[test]
fn json_of_what_is_undone_refused_and_stuck() {
    let lines = json_lines(&printed("json more", A, &["--json"], "1\nx\n1\nu\n", 0));
    let events: Vec<&str> = lines.iter().map(|line| line.text("event")).collect();
    assert_eq!(events, ["begin", "move", "move", "undone", "end"]);
    assert_eq!(lines[3].get("threads"), lines[1].get("threads"));
    let words = ["--json", "--replay", "0,1"];
    let lines = json_lines(&printed("json more", A, &words, "", 1));
    let refused = lines.last().unwrap().get("refused");
    assert_eq!(
        (refused.text("move"), refused.get("number")),
        ("1", &Json::Number(30))
    );
    let words = ["--json", "--random", "1"];
    let lines = json_lines(&printed("json more", UNPACKING, &words, "", 0));
    assert_eq!(lines.last().unwrap().list("stuck"), [Json::Number(0)]);
    let lines = json_lines(&printed("json more", SERVER, &words, "", 0));
    let end = lines.last().unwrap();
    assert_eq!(end.get("left"), &Json::Number(0));
    assert!(!end.list("waiting").is_empty() && !end.list("done").is_empty());
}

#[test]
fn a_picture_of_listing_a() {
    let words = ["--svg", "--replay", A_TO_THE_END];
    let svg = printed("svg", A, &words, "", 0);
    let found = elements(&svg);
    assert_eq!(found[0].0, "svg");
    let counts = ["lane", "birth", "message", "dot"].map(|class| of_class(&found, class));
    assert_eq!(counts, [2, 1, 1, 4]);
    assert!(svg.contains(">row 1 #1</text>"), "{svg}");
    assert!(svg.contains("move 6: thread 0 to thread 1 on channel row 1 #1: unit</title>"));
    stands_alone(&svg);
    let title = "f: 2 threads, 6 moves, 1 message</title>";
    assert!(svg.contains(title), "{svg}");
}

#[test]
fn a_picture_of_many_threads_and_messages() {
    // Pairs of a thread that sends again and again and one that receives.
    let mut program = Written::new();
    let channel = program.chan();
    let unit = program.unit();
    let sending = program.fun(|body, own, parameter| {
        body.send(channel, parameter);
        let again = body.apply(own, parameter);
        body.result(again);
    });
    let receiving = program.fun(|body, own, parameter| {
        body.receive(channel);
        let again = body.apply(own, parameter);
        body.result(again);
    });
    let spawning = program.fun(|body, own, parameter| {
        for function in [sending, receiving] {
            body.spawn(|thread| {
                let name = thread.apply(function, parameter);
                thread.result(name);
            });
        }
        let again = body.apply(own, parameter);
        body.result(again);
    });
    let name = program.apply(spawning, unit);
    program.result(name);
    let file = String::from_utf8(print(&program.document())).unwrap();
    let random = ["--random", "7", "--moves", "1400"];
    let lines = printed("many", &file, &[&["--json"], &random[..]].concat(), "", 0);
    let end = Json::read(lines.lines().last().unwrap());
    let before = Json::read(lines.lines().rev().nth(1).unwrap());
    let (threads, messages) = (before.list("threads").len(), end.list("messages").len());
    assert!(threads > 40 && messages > 150, "{threads}, {messages}");
    let svg = printed("many", &file, &[&["--svg"], &random[..]].concat(), "", 0);
    let found = elements(&svg);
    let counts = ["lane", "birth", "message"].map(|class| of_class(&found, class));
    assert_eq!(counts, [threads, threads - 1, messages]);
    // Each label has a place of its own: none stands on another.
    let mut places = BTreeSet::new();
    let labels = found.iter().filter(|(name, _)| name == "text");
    for (_, attributes) in labels {
        let place = attributes.split_once(" x=").expect("a place").1;
        assert!(places.insert(place.to_string()), "{place}");
    }
}

#[test]
fn text_in_a_picture_is_escaped() {
    let folder = Folder::with("escape", A);
    let name = "a<b>&\"c'.txt";
    std::fs::write(folder.path.join(name), A).unwrap();
    let output = folder.run(&["watch", "--svg", "--random", "1", name]);
    let svg = text(&output.stdout);
    elements(svg);
    assert!(
        svg.contains(">a&lt;b&gt;&amp;&quot;c&#39;.txt</text>"),
        "{svg}"
    );
}

#[test]
fn a_picture_of_a_run_that_is_refused_or_asked_for() {
    let folder = Folder::with("svg more", A);
    let output = folder.watch(&["--svg", "--replay", "0,1"], "");
    assert_eq!(output.status.code(), Some(1));
    assert_eq!(of_class(&elements(text(&output.stdout)), "dot"), 1);
    let told = "move 2, 1: refused 30: the run rules do not allow the move\n";
    assert_eq!(text(&output.stderr), told);
    // Who chooses sees the moves on standard error.
    let output = folder.watch(&["--svg"], "1\n1\nu\n");
    assert_eq!(output.status.code(), Some(0));
    assert_eq!(of_class(&elements(text(&output.stdout)), "dot"), 1);
    assert!(text(&output.stderr).contains("move 2 is undone\n"));
}
