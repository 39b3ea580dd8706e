//! A ticket's file in its three forms, and the nets' names.

mod common;

use common::{flat, ticket};
use pozqaben::{flatten, read, unflatten, Kind, NoTicket, Refusal, Ticket, LARGEST_NET};
use slow::tickets::{random, Numbers, DOCUMENT};

fn good(file: &str) -> Ticket {
    Ticket::from_file(file.as_bytes()).unwrap_or_else(|why| panic!("{why}: {file}"))
}

fn digits(bytes: &[u8], between: &str) -> String {
    bytes.iter().map(|byte| format!("{byte:02x}")).collect::<Vec<_>>().join(between)
}

/// A flat ticket as text, written here once more: numbers, and `.` for an empty place.
fn text(flat: &[u8]) -> String {
    let kind = ["row", "channel", "box", "two-layer"][flat[0] as usize - 1];
    let places = flat[3..].iter().map(|net| if *net == 0 { ".".to_string() } else { net.to_string() });
    format!("{kind} {} {} {}", flat[1], flat[2], places.collect::<Vec<_>>().join("\n"))
}

/// Every form of a ticket's file gives the ticket, and its own text does.
#[test]
fn all_forms_are_one_ticket() {
    let r = &mut Numbers::new(411);
    let of_document = DOCUMENT.iter().map(|(_, t)| t.to_vec()).filter(|t| read(t).is_ok());
    for t in of_document.chain((0..2000).map(|_| random(r))) {
        let expected = Ticket::new(t.clone()).unwrap();
        let flat = flatten(&t).unwrap();
        assert_eq!(expected.bytes(), t);
        assert_eq!(Ticket::from_file(&t), Ok(expected.clone()));
        assert_eq!(Ticket::from_flat_file(&flat), Ok(expected.clone()));
        for between in ["", " ", "\r\n", "  # a comment\n\t"] {
            assert_eq!(good(&digits(&t, between)), expected);
            assert_eq!(Ticket::from_flat_file(digits(&flat, between).as_bytes()), Ok(expected.clone()));
        }
        let own = expected.to_text();
        for text in [&own, &text(&flat), &own.replace('.', "0"), &own.replace(' ', "\t ")] {
            assert_eq!(good(text), expected, "{text}");
            assert_eq!(Ticket::from_flat_file(text.as_bytes()), Ok(expected.clone()));
        }
        assert!((1..=LARGEST_NET).all(|net| expected.name(net) == net.to_string()));
    }
}

/// The text has a line for kind and shape and one for each side.
#[test]
fn texts() {
    let text_of = |flat: &[u8]| Ticket::from_flat_file(flat).unwrap().to_text();
    assert_eq!(text_of(&[1, 3, 2, 5, 0, 5]), "row 3 2\n5 . 5\n");
    assert_eq!(text_of(&[2, 2, 1, 1, 2, 2, 1]), "channel 2 1\n1 2\n2 1\n");
    assert_eq!(text_of(&[3, 2, 3, 1, 0, 0, 1, 7, 0, 0, 7, 0, 0]), "box 2 3\n1 .\n. 1\n7 . .\n7 . .\n");
    assert_eq!(text_of(&[4, 2, 1, 1, 2, 1, 2]), "two-layer 2\n1 2\n1 2\n");
    assert_eq!(Kind::ALL.map(|kind| kind.byte()), [1, 2, 3, 4]);
}

/// Names are numbered in order of appearance and come back, but for those that are all nets' numbers.
#[test]
fn names() {
    let named = |places: &str| {
        let ticket = good(&format!("row 6 1\n{places}"));
        let flat = flatten(ticket.bytes()).unwrap();
        let names = flat[3..].iter().filter(|net| **net != 0).map(|net| ticket.name(*net)).collect::<Vec<_>>();
        assert_eq!(names, places.split(' ').filter(|name| ![".", "0"].contains(name)).collect::<Vec<_>>());
        assert_eq!(good(&ticket.to_text()), ticket);
        flat[3..].to_vec()
    };
    assert_eq!(named("b a . b a ."), [1, 2, 0, 1, 2, 0]);
    assert_eq!(named("clk a[1] b<0> b<0> a[1] clk"), [1, 2, 3, 3, 2, 1]);
    assert_eq!(named("7 180 0 7 180 ."), [7, 180, 0, 7, 180, 0]);
    assert_eq!(named("7 181 . 7 181 ."), [1, 2, 0, 1, 2, 0]);
    assert_eq!(named("7 a . 7 a ."), [1, 2, 0, 1, 2, 0]);
    assert_eq!(named("7 07 . 7 07 ."), [1, 2, 0, 1, 2, 0]);
    assert_eq!(named("00 00 . _$.:/[]<>- _$.:/[]<>- ."), [1, 1, 0, 2, 2, 0]);
    let longest = "n".repeat(32);
    assert_eq!(named(&format!("{longest} . . . {longest} .")), [1, 0, 0, 0, 1, 0]);
}

/// As many names as nets may have numbers, and one more.
#[test]
fn many_names() {
    let text = |count: usize| {
        let side = |from: usize| (from..from + 90).map(|net| format!("n{} ", net.min(count))).collect::<String>();
        format!("box 90 90 {} {} {} {}", side(1), side(91), side(1), side(91))
    };
    let ticket = good(&text(180));
    assert_eq!(read(ticket.bytes()).map(|reading| reading.nets), Ok(180));
    assert!((1..=180).all(|net| ticket.name(net) == format!("n{net}")));
    let side = |from: usize, count: usize| (from..from + count).map(|net| format!("n{net} ")).collect::<String>();
    let more = format!("box 90 90 {} {} {} {}", side(1, 90), side(91, 90), side(181, 90), side(271, 90));
    match Ticket::from_file(more.as_bytes()) {
        Err(NoTicket::Text { refusal, at }) => {
            assert_eq!((refusal, at.word.as_str()), (Refusal { number: 7, place: 183 }, "n181"));
        }
        other => panic!("{other:?}"),
    }
}

/// What is no good ticket is refused as `read` and `unflatten` refuse the bytes, in hexadecimal digits and in text too.
#[test]
fn refusals() {
    let r = &mut Numbers::new(412);
    let mut texts = 0;
    for _ in 0..20_000 {
        let (t, f) = (ticket(r), flat(r));
        let by_read = read(&t).map(|_| t.clone()).map_err(NoTicket::Refused);
        let by_unflatten = unflatten(&f).map_err(NoTicket::Refused);
        let bytes = |read: Result<Ticket, NoTicket>| read.map(|ticket| ticket.bytes().to_vec());
        if t.first().is_some_and(|byte| *byte < 9) {
            assert_eq!(bytes(Ticket::from_file(&t)), by_read, "{t:?}");
            assert_eq!(bytes(Ticket::from_file(digits(&t, "").as_bytes())), by_read, "{t:?}");
        }
        if f.first().is_some_and(|byte| *byte < 9) {
            assert_eq!(bytes(Ticket::from_flat_file(&f)), by_unflatten, "{f:?}");
            assert_eq!(bytes(Ticket::from_flat_file(digits(&f, " ").as_bytes())), by_unflatten, "{f:?}");
        }
        // A number that is no net's would be a name.
        if f.len() >= 3 && (1..=4).contains(&f[0]) && f[3..].iter().all(|net| *net <= LARGEST_NET) {
            texts += 1;
            let by_text = match Ticket::from_file(text(&f).as_bytes()) {
                Err(NoTicket::Text { refusal, .. }) => Err(NoTicket::Refused(refusal)),
                other => bytes(other),
            };
            assert_eq!(by_text, by_unflatten, "{f:?}");
        }
    }
    assert!(texts > 5000, "{texts}");
}

/// No bytes make the reader panic, and what it takes it writes so that it takes it again.
#[test]
fn noise() {
    let r = &mut Numbers::new(413);
    let ends: [&[u8]; 3] = [b"\n", b"\r\n", b"\t"];
    let words = b". 0 a a b 1 1 2 181 - # \xc3\xa9 \xff \0 02 f box".split(|byte| *byte == b' ').chain(ends).collect::<Vec<_>>();
    let beginnings: [&[u8]; 6] = [b"", b"row 2 1 ", b"box 1 1\n", b"two-layer 1\n", b"channel 2 2\n", b"03 "];
    let mut accepted = 0;
    for _ in 0..100_000 {
        let beginning = r.pick(&beginnings).to_vec();
        let file = (0..r.below(7)).fold(beginning, |file, _| [&file[..], r.pick(&words), b" "].concat());
        for ticket in [Ticket::from_file(&file), Ticket::from_flat_file(&file)] {
            match ticket {
                Ok(ticket) => {
                    accepted += 1;
                    assert_eq!(good(&ticket.to_text()), ticket, "{file:?}");
                }
                Err(why) => assert!(!why.to_string().is_empty()),
            }
        }
    }
    assert!(accepted > 500, "{accepted}");
}
