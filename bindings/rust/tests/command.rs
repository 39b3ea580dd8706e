//! The command `pozqaben`, started as a user starts it: what it prints, what it writes, and how it ends on bad words and bad input.

mod common;

use common::{flat, ticket};
use pozqaben::{edge_floor, flatten, hardest_box, lay, read, survey, unflatten, Effort, Layout, Refusal, Ticket, Wiring};
use slow::tickets::{of_shape, random, solid, Numbers, DOCUMENT};
use slow::BOX;
use std::fs;
use std::io::Write;
use std::path::PathBuf;
use std::process::{Command, Stdio};

const ACCEPTED: i32 = 0;
const REFUSED: i32 = 1;
const MISUSED: i32 = 2;

#[derive(Debug)]
struct Ended {
    code: i32,
    out: Vec<u8>,
    err: String,
}

/// Runs the command with these words and this standard input.
fn run(words: &[&str], input: &[u8]) -> Ended {
    let mut command = Command::new(env!("CARGO_BIN_EXE_pozqaben"));
    let streams = command.args(words).stdin(Stdio::piped()).stdout(Stdio::piped()).stderr(Stdio::piped());
    let mut child = streams.spawn().expect("the command");
    // Where the words are wrong the input is not read, and this fails.
    let _ = child.stdin.take().expect("its input").write_all(input);
    let output = child.wait_with_output().expect("its output");
    let err = String::from_utf8(output.stderr).expect("words on standard error");
    assert!(!err.contains("panicked"), "{words:?}: {err}");
    let code = output.status.code().unwrap_or_else(|| panic!("{words:?} was ended by a signal: {err}"));
    assert!([ACCEPTED, REFUSED, MISUSED].contains(&code), "{words:?}: {code}");
    assert_eq!(code == ACCEPTED, err.is_empty() || words[0] == "squeeze" && code == ACCEPTED, "{words:?}: {err}");
    Ended { code, out: output.stdout, err }
}

/// What an accepted command writes to standard output.
fn out(words: &[&str], input: &[u8]) -> Vec<u8> {
    let ended = run(words, input);
    assert_eq!(ended.code, ACCEPTED, "{words:?}: {}", ended.err);
    ended.out
}

fn line(words: &[&str], input: &[u8]) -> String {
    String::from_utf8(out(words, input)).expect("text")
}

/// What a command that does not do its work says; it has written nothing to standard output.
fn said(words: &[&str], input: &[u8], code: i32) -> String {
    let ended = run(words, input);
    assert_eq!(ended.code, code, "{words:?}: {}", ended.err);
    assert!(ended.out.is_empty(), "{words:?}");
    assert!(ended.err.ends_with('\n') && ended.err.lines().count() == 1, "{words:?}: {}", ended.err);
    ended.err.trim_end().to_string()
}

/// A folder of the test's own, empty.
struct Folder(PathBuf);

impl Folder {
    fn new(test: &str) -> Self {
        let path = PathBuf::from(env!("CARGO_TARGET_TMPDIR")).join(test);
        let _ = fs::remove_dir_all(&path);
        fs::create_dir_all(&path).expect("a folder");
        Folder(path)
    }

    fn path(&self, name: &str) -> String {
        self.0.join(name).to_str().expect("a path of letters").to_string()
    }

    fn file(&self, name: &str, bytes: &[u8]) -> String {
        let path = self.path(name);
        fs::write(&path, bytes).expect("a file");
        path
    }
}

const CHANNEL: &str = "channel 4 1\nclk a . b     # north\na clk b .     # south\n";

/// A command that reads a ticket, or else a wiring, from standard input, and other words that it takes.
const OF_TICKETS: [&[&str]; 9] =
    [&["survey"], &["edge-floor"], &["lay"], &["draw"], &["gds"], &["def"], &["flatten"], &["unflatten"], &["squeeze", "--budget", "50"]];

#[test]
fn help_and_usage() {
    let all = line(&["--help"], b"");
    assert_eq!(line(&["help"], b""), all);
    let names = ["survey", "edge-floor", "lay", "check", "view", "draw", "gds", "def", "flatten", "unflatten", "hardest", "squeeze"];
    for name in names {
        assert!(all.contains(&format!("\n  {name} ")), "{name}");
        let help = line(&[name, "--help"], b"");
        assert!(help.starts_with(&format!("usage: pozqaben {name} ")), "{help}");
        assert_eq!(line(&[name, "-h"], b""), help);
        assert!(help.lines().all(|line| line.chars().count() <= 140), "{help}");
        assert!(said(&[name, "--nonsense"], b"", MISUSED).starts_with("there is no option --nonsense;"));
        assert!(said(&[name, "a", "b", "c", "d"], b"", MISUSED).starts_with("there are too many words;"));
        assert!(said(&[name, "-o"], b"", MISUSED).starts_with("-o has no value;"));
        assert!(said(&[name, "-o", "a", "--output=b"], b"", MISUSED).starts_with("-o is there twice;"));
    }
    let (help, usual) = (line(&["squeeze", "--help"], b""), Effort::default());
    assert!(help.contains(&format!("NETS nets ({})", usual.budget)) && help.contains(&format!("NUMBER ({})", usual.seed)), "{help}");
    assert_eq!(line(&["--version"], b""), "pozqaben 0.1.0\n");
    assert!(said(&["frobnicate"], b"", MISUSED).starts_with("there is no command frobnicate;"));
    assert!(said(&["check"], b"", MISUSED).starts_with("there are too few words;"));
    let ended = Command::new(env!("CARGO_BIN_EXE_pozqaben")).output().expect("the command");
    assert_eq!((ended.status.code(), ended.stdout.len()), (Some(MISUSED), 0));
}

#[test]
fn words_that_are_no_numbers() {
    for words in [&["hardest", "3", "x"][..], &["hardest", "-1", "3"], &["view", "one"], &["hardest", "99999999999999999999999", "1"]] {
        said(words, b"", MISUSED);
    }
    said(&["squeeze", "--budget", "-1"], b"", MISUSED);
    said(&["squeeze", "--seed=x"], b"", MISUSED);
    said(&["flatten", "--as", "words"], b"", MISUSED);
    for words in [["hardest", "0", "3"], ["hardest", "3", "91"]] {
        assert_eq!(said(&words, b"", REFUSED), Refusal { number: 18, place: 0 }.to_string());
    }
}

/// The verdict names the sharper floor of a box, and the least tracks of others.
#[test]
fn verdicts() {
    let folder = Folder::new("verdicts");
    let verdict = |text: &str| {
        let t = folder.file("ticket", text.as_bytes());
        let wiring = folder.file("wiring", &out(&["lay", &t], b""));
        line(&["check", &t, &wiring], b"")
    };
    assert_eq!(line(&["edge-floor"], b"box 1 2 . . a b b a"), "floor 3 edge floor 4\n");
    let floor = "every legal wiring of this box has at least so many layers\n";
    assert_eq!(verdict("box 1 2 . . a b b a"), format!("accepted: 2 tracks, 8 layers; edge floor 4: {floor}"));
    assert_eq!(verdict("box 2 2 a . . a . . . ."), format!("accepted: 2 tracks, 6 layers; floor 2: {floor}"));
    let least = "no legal wiring with at most 2 horizontal layers has fewer than 1 track\n";
    assert_eq!(verdict("row 4 2 a b a b"), format!("accepted: 1 track, 4 layers; {least}"));
    assert_eq!(verdict("two-layer 2\na b\na b"), "accepted: 1 track, 2 layers\n");
}

/// The five lines of the README.
#[test]
fn from_a_text_to_a_picture_a_layout_and_a_verdict() {
    let folder = Folder::new("five_lines");
    let [t, wiring, picture, gds] = ["my.ticket", "my.wiring", "my.svg", "my.gds"].map(|name| folder.path(name));
    fs::write(&t, CHANNEL).unwrap();
    assert!(out(&["lay", &t, "-o", &wiring], b"").is_empty());
    assert!(out(&["draw", &t, &wiring, "-o", &picture], b"").is_empty());
    assert!(out(&["gds", &t, &wiring, "-o", &gds], b"").is_empty());
    let verdict = "accepted: 2 tracks, 3 layers; no legal wiring with at most 1 horizontal layer has fewer than 2 tracks\n";
    assert_eq!(line(&["check", &t, &wiring], b""), verdict);
    let ticket = Ticket::from_file(CHANNEL.as_bytes()).unwrap();
    let laid = Wiring::from(lay(ticket.bytes()).unwrap());
    assert_eq!(fs::read(&wiring).unwrap(), laid.to_file());
    let layout = Layout::of(&ticket, laid).unwrap();
    assert_eq!(fs::read_to_string(&picture).unwrap(), layout.svg());
    assert!(layout.svg().contains(">clk</text>"));
    assert_eq!(fs::read(&gds).unwrap(), layout.gds());
}

/// Each command gives what the library gives, for a ticket in each form and from a file as from standard input.
#[test]
fn the_calls_of_the_library() {
    let (r, folder) = (&mut Numbers::new(401), Folder::new("calls"));
    let tickets = DOCUMENT.iter().map(|(_, t)| t.to_vec()).chain((0..25).map(|_| random(r))).collect::<Vec<_>>();
    for t in tickets.iter().filter(|t| lay(t).is_ok()) {
        let good = Ticket::new(t.clone()).unwrap();
        let digits = out(&["unflatten", "--as=hex"], &flatten(t).unwrap());
        let text = good.to_text();
        for form in [t, &digits, text.as_bytes()] {
            assert_eq!(line(&["survey"], form), format!("{}\n", survey(t).unwrap()));
        }
        let floors = edge_floor(t).unwrap();
        assert_eq!(line(&["edge-floor", "-"], t), format!("floor {} edge floor {}\n", floors.floor, floors.edge_floor));
        let file = folder.file("ticket", t);
        let wiring = Wiring::from(lay(t).unwrap());
        let wiring_file = folder.file("wiring", &out(&["lay", "--", &file], b""));
        assert_eq!(fs::read(&wiring_file).unwrap(), wiring.to_file());
        let layout = Layout::laid(&good).unwrap();
        assert_eq!(out(&["draw", &file], b""), layout.svg().into_bytes());
        assert_eq!(out(&["gds", "-", &wiring_file], t), layout.gds());
        let lef = folder.path("lef");
        assert_eq!(out(&["def", &file, "-", "--lef", &lef], &wiring.to_file()), layout.def().into_bytes());
        assert_eq!(fs::read_to_string(&lef).unwrap(), layout.lef());
        assert_eq!(line(&["check", &file, &wiring_file], b""), format!("accepted: {}\n", layout.summary()));
        assert_eq!(out(&["flatten", "--as", "bytes"], t), flatten(t).unwrap());
        assert_eq!(line(&["flatten"], t), text);
        assert_eq!(out(&["unflatten"], text.as_bytes()), *t);
    }
}

#[test]
fn a_layer_is_shown() {
    let folder = Folder::new("layers");
    let t = folder.file("ticket", CHANNEL.as_bytes());
    let wiring = folder.file("wiring", &out(&["lay", &t], b""));
    assert_eq!(line(&["view", "2", &wiring], b""), "2 2 . .\n1 1 3 3\n");
    assert_eq!(line(&["view", "2", &wiring, "--ticket", &t], b""), "  a   a   .   .\nclk clk   b   b\n");
    assert_eq!(line(&["view", "3"], &fs::read(&wiring).unwrap()), "2 1 3 .\n2 1 3 .\n");
    for layer in ["0", "4", "1000000"] {
        assert_eq!(said(&["view", layer, &wiring], b"", REFUSED), format!("refused 16 at {layer}: the wiring has no layer {layer}"));
    }
    said(&["view", "1", "-", "--ticket", "-"], b"", MISUSED);
    said(&["check", "-", "-"], b"", MISUSED);
}

#[test]
fn hardest_boxes() {
    for (n, w) in [(1, 1), (8, 4), (90, 90)] {
        let (words, t) = (["hardest", &n.to_string(), &w.to_string()], hardest_box(n, w).unwrap());
        assert_eq!(out(&words, b""), t);
        let text = out(&[&words[..], &["--as", "text"]].concat(), b"");
        assert_eq!(out(&["unflatten"], &text), t);
        assert_eq!(line(&["survey"], &out(&[&words[..], &["--as", "hex"]].concat(), b"")), format!("{}\n", survey(&t).unwrap()));
    }
}

#[test]
fn a_box_is_squeezed() {
    let (folder, t) = (Folder::new("squeezed"), hardest_box(8, 4).unwrap());
    let (file, best) = (folder.file("ticket", &t), folder.path("best"));
    let ended = run(&["squeeze", &file, "-o", &best], b"");
    assert_eq!(String::from_utf8(ended.out).unwrap(), "5 layers found, floor 5: no legal wiring has fewer\n");
    assert!(ended.err.contains("5 layers, first horizontal: found, "), "{}", ended.err);
    assert_eq!(line(&["check", &file, &best], b"").split(';').next(), Some("accepted: 4 tracks, 5 layers"));
    let ended = run(&["squeeze", "-o", "-", "--seed", "1"], &t);
    assert_eq!(ended.out, fs::read(&best).unwrap());
    assert!(ended.err.ends_with("5 layers found, floor 5: no legal wiring has fewer\n"), "{}", ended.err);
    let ended = run(&["squeeze", "--budget", "12"], &t);
    let searches =
        ["7 layers, first vertical: found, ", "6 layers, first vertical: not found, ", "6 layers, first horizontal: not found, "];
    assert!(ended.err.lines().count() == 3 && searches.iter().all(|search| ended.err.contains(search)), "{}", ended.err);
    assert_eq!(line(&["squeeze", "--budget=0"], &t), "8 layers laid, floor 5: whether 5 to 7 can be wired is not known\n");
}

/// What the calls refuse is told with its number, place and meaning.
#[test]
fn refusals_of_tickets() {
    let r = &mut Numbers::new(402);
    let mut refused = 0;
    while refused < 60 {
        let (t, f) = (ticket(r), flat(r));
        let is_bytes = |file: &[u8]| file.first().is_none_or(|byte| !byte.is_ascii_graphic() && !byte.is_ascii_whitespace());
        if let (Err(refusal), true) = (read(&t), is_bytes(&t)) {
            let words = OF_TICKETS[refused % 7];
            assert_eq!(said(words, &t, REFUSED), refusal.to_string(), "{t:?}");
            refused += 1;
        }
        if let (Err(refusal), true) = (unflatten(&f), is_bytes(&f)) {
            assert_eq!(said(&["unflatten"], &f, REFUSED), refusal.to_string(), "{f:?}");
        }
    }
    let t = solid(r, 3);
    for words in [&["lay"][..], &["draw"], &["gds"], &["def"], &["squeeze"]] {
        assert!(said(words, &t, REFUSED).starts_with("refused 17 at 0: "));
    }
}

/// A text's line and column are told.
#[test]
fn refusals_of_texts() {
    let nets = |count: usize| (1..=count).map(|net| format!("n{net} ")).collect::<String>();
    let many = format!("box 90 90\n{}\n{}\n. .", nets(90), nets(181).split_off(nets(90).len()));
    let cases = [
        ("bus 4 1\n.", "refused 2 at 0: ", "; line 1, column 1: \"bus\" is none of row, channel, box, two-layer"),
        ("# a row\n\n row x 1 .", "refused 3 at 1: ", "; line 3, column 6: \"x\""),
        ("row 91 1 .", "refused 3 at 1: ", "; line 1, column 5: \"91\""),
        ("row 256 1 .", "refused 3 at 1: ", "; line 1, column 5: \"256\""),
        ("row +2 1 .", "refused 3 at 1: ", "; line 1, column 5: \"+2\""),
        ("row 2 9\na a", "refused 4 at 2: ", "; line 1, column 7: \"9\""),
        ("two-layer 2 2\na b\na b", "refused 4 at 2: ", "; line 1, column 13: \"2\""),
        ("row 2 1\na", "refused 1 at 4: ", "; line 2, column 2: the text ends here"),
        ("row 2 1\na # é", "refused 1 at 4: ", "; line 2, column 6: the text ends here"),
        ("row 2\n", "refused 1 at 2: ", "; line 2, column 1: the text ends here"),
        (" \n", "refused 1 at 0: ", "; line 2, column 1: the text ends here"),
        ("row 2 1\na a\n\tb # no place", "refused 8 at 5: ", "; line 3, column 2: \"b\""),
        ("row 3 1\na b a", "refused 9 at 2: net 2 has one pin only", "; line 2, column 3: \"b\""),
        ("row 3 1\n5 7 5", "refused 9 at 7: net 7 has one pin only", "; line 2, column 3: \"7\""),
        ("row 2 1\na é", "refused 7 at 4: ", "; line 2, column 3: \"é\" is no net's name: at most 32 letters"),
        ("row 2 1\n.a .a", "refused 7 at 3: ", "; line 2, column 1: \".a\" is no net's name"),
        (&many, "refused 7 at 183: ", "; line 3, column 442: \"n181\" is the name of one net more than 180"),
    ];
    for (text, number, word) in cases {
        for words in OF_TICKETS {
            let said = said(words, text.as_bytes(), REFUSED);
            assert!(said.starts_with(number) && said.contains(word), "{text:?}: {said}");
        }
    }
    let digits = said(&["survey"], b"03 01\n1", REFUSED);
    assert_eq!(digits, "no ticket: line 2, column 1: \"1\" is no pairs of hexadecimal digits");
    assert!(said(&["survey"], b"03 0g", REFUSED).contains("line 1, column 4: \"0g\""));
}

#[test]
fn refusals_of_wirings() {
    let folder = Folder::new("wirings");
    let t = folder.file("ticket", CHANNEL.as_bytes());
    let wiring = Wiring::from(lay(Ticket::from_file(CHANNEL.as_bytes()).unwrap().bytes()).unwrap());
    let with = |change: fn(&mut Wiring)| {
        let mut wiring = wiring.clone();
        change(&mut wiring);
        wiring.to_file()
    };
    let whole = wiring.to_file();
    let cases = [
        (with(|x| x.points[8] = 0), "refused 15 at 1: net 1 is not in one piece; net 1 is \"clk\""),
        (with(|x| x.points[0] = 9), "refused 14 at 0: "),
        (with(|x| x.first = true), "refused 15 at 1: "),
        (with(|x| (x.n, x.w) = (8, 1)), "refused 12 at 12: "),
        (with(|x| (x.n, x.w) = (2, 4)), "refused 12 at 48: "),
        (with(|x| x.k = 2), "no wiring: the file has 24 points"),
        (whole[..whole.len() - 1].to_vec(), "no wiring: the file has 23 points"),
        (whole[..20].to_vec(), "no wiring: the file does not begin with a line like"),
        (vec![], "no wiring: the file does not begin with a line like"),
        (b"wiring length 0 width 0 layers 0 first vertical\n".to_vec(), "refused 11 at "),
        (out(&["lay"], &hardest_box(8, 4).unwrap()), "refused 12 at "),
    ];
    for (file, why) in cases {
        let path = folder.file("wrong", &file);
        for name in ["check", "draw", "gds", "def"] {
            assert!(said(&[name, &t, &path], b"", REFUSED).starts_with(why), "{why}");
            assert!(said(&[name, &t, "-"], &file, REFUSED).starts_with(why), "{why}");
        }
    }
    assert!(said(&["check", &t, &t], b"", REFUSED).starts_with("no wiring: "));
}

/// Whatever is read, a command ends with one of its codes, and a refused one leaves the file that it was to write as it is.
#[test]
fn any_input() {
    let (r, folder) = (&mut Numbers::new(403), Folder::new("any_input"));
    let kept = folder.file("kept", b"as it was");
    let mut noise = |length: usize| -> Vec<u8> { (0..length).map(|_| r.below(256) as u8).collect() };
    let million = noise(1_000_000);
    let beginnings: [&[u8]; 8] =
        [b"", b"0", b"a", b"row 9 1 ", b"\x03\x09\x09", b"wiring length 4 width 2 layers 3 first vertical\n", b"#", b" "];
    let mut inputs: Vec<Vec<u8>> = beginnings.iter().map(|beginning| [beginning, &million[..]].concat()).collect();
    inputs.extend([b"a ".repeat(500_000), b"00".repeat(500_000), vec![b'\n'; 1_000_000], vec![0; 1_000_000], vec![b' '; 20_000_000]]);
    let (t, text) = (hardest_box(3, 2).unwrap(), CHANNEL.as_bytes());
    inputs.extend((0..t.len()).map(|length| t[..length].to_vec()));
    inputs.extend([0, 1, 7, 9, 11, 13, 20].map(|length| text[..length].to_vec()));
    let good = folder.file("ticket", text);
    for input in &inputs {
        for words in OF_TICKETS.iter().copied().chain([&["check", &good, "-"][..], &["check", "-", &good], &["view", "1"]]) {
            let ended = run(&[words, &["-o", &kept]].concat(), input);
            assert_eq!((ended.code, ended.out.len()), (REFUSED, 0), "{words:?}: {}", ended.err);
        }
        assert_eq!(fs::read(&kept).unwrap(), b"as it was");
    }
    assert_eq!(said(&["survey"], &[b' '; 20_000_000], REFUSED), "standard input is longer than any ticket or wiring");
}

#[test]
fn files_that_cannot_be_used() {
    let folder = Folder::new("unusable");
    let (t, missing, below) = (folder.file("ticket", CHANNEL.as_bytes()), folder.path("missing"), folder.path("missing/file"));
    let wiring = folder.file("wiring", &out(&["lay", &t], b""));
    let here = folder.path(".");
    for name in ["survey", "edge-floor", "lay", "draw", "gds", "def", "flatten", "unflatten", "squeeze"] {
        for unreadable in [&missing, &here, ""] {
            let said = said(&[name, unreadable], b"", MISUSED);
            assert!(said.starts_with(&format!("{unreadable}: ")), "{said}");
        }
        for unwritable in [&below, &here, "/dev/full"] {
            let said = said(&[name, &t, "-o", unwritable], b"", MISUSED);
            assert!(said.starts_with(&format!("{unwritable}: ")), "{said}");
        }
    }
    said(&["check", &t, &missing], b"", MISUSED);
    said(&["check", &t, &wiring, "-o", &below], b"", MISUSED);
    said(&["view", "1", &missing], b"", MISUSED);
    said(&["hardest", "3", "3", "-o", &below], b"", MISUSED);
    said(&["def", &t, "--lef", &below], b"", MISUSED);
    // Before the search, which would have said more.
    said(&["squeeze", "-", "-o", &below], &hardest_box(8, 4).unwrap(), MISUSED);
    assert!(!PathBuf::from(missing).exists());
}

/// A large box in each form of output.
#[test]
fn the_largest_box() {
    let t = of_shape(&mut Numbers::new(404), BOX, 90, 90, 10);
    let folder = Folder::new("largest");
    let (file, wiring) = (folder.file("ticket", &t), folder.path("wiring"));
    out(&["lay", &file, "-o", &wiring], b"");
    for name in ["check", "draw", "gds", "def"] {
        assert!(!out(&[name, &file, &wiring], b"").is_empty());
    }
}
