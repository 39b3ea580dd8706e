//! The readers and the extraction refuse what is not as it should be: without that the other tests would say nothing.

use crate::shapes::{extracted, Label, Rectangle, CUT, DRAWN, PINS, STEP, TEXT};
use crate::{def, gds, lef};
use pozqaben::{hardest_box, Layout, Ticket};

fn ticket() -> Ticket {
    Ticket::new(hardest_box(3, 2).unwrap()).unwrap()
}

/// Each text without a token, with one twice, and cut before one.
fn altered(text: &str) -> Vec<String> {
    let words: Vec<&str> = text.split_ascii_whitespace().collect();
    let mut texts = Vec::new();
    for at in 0..words.len() {
        texts.push([&words[..at], &words[at + 1..]].concat().join(" "));
        texts.push([&words[..=at], &words[at..]].concat().join(" "));
        texts.push(words[..at].join(" "));
    }
    texts
}

#[test]
fn streams_that_are_cut() {
    let stream = Layout::laid(&ticket()).unwrap().gds();
    assert!(gds::read(&stream).is_ok());
    for end in 0..stream.len() {
        assert!(gds::read(&stream[..end]).is_err(), "{end}");
    }
    for tail in [&[0][..], &[0, 0], &[0, 4, 4, 0], &[0, 4, 7, 0]] {
        assert!(gds::read(&[&stream, tail].concat()).is_err(), "{tail:?}");
    }
}

#[test]
fn records_that_are_altered() {
    let stream = Layout::laid(&ticket()).unwrap().gds();
    let records = gds::records(&stream).unwrap();
    for (index, record) in records.iter().enumerate() {
        let instead = |other: &[&[u8]]| [&records[..index], other, &records[index + 1..]].concat().concat();
        assert!(gds::read(&instead(&[])).is_err(), "without {index}");
        assert!(gds::read(&instead(&[record, record])).is_err(), "{index} twice");
        for length in [0, 2, 4, record.len() - 2, record.len() - 1, record.len() + 1, record.len() + 2, 0xfffe] {
            let [high, low] = (length as u16).to_be_bytes();
            let altered = [&[high, low], &record[2..]].concat();
            assert!(length == record.len() || gds::read(&instead(&[&altered])).is_err(), "{index} of length {length}");
        }
        for at in 2..4 {
            let mut altered = record.to_vec();
            altered[at] ^= 1;
            assert!(gds::read(&instead(&[&altered])).is_err(), "{index} with another number or type");
        }
    }
}

/// No byte makes the reader panic, and what it takes for another drawing is another one.
#[test]
fn bytes_that_are_altered() {
    let stream = Layout::laid(&ticket()).unwrap().gds();
    let library = gds::read(&stream).unwrap();
    let mut taken = 0;
    for at in 0..stream.len() {
        let mut altered = stream.clone();
        altered[at] ^= 0x10;
        if let Ok(other) = gds::read(&altered) {
            taken += usize::from(other.rectangles != library.rectangles || other.labels != library.labels);
        }
    }
    // The layers, and the places and texts of labels; a corner that is moved is none of a rectangle.
    assert!(taken > 0 && taken < stream.len() / 5, "{taken} of {}", stream.len());
}

#[test]
fn reals() {
    assert_eq!(gds::real([0x41, 0x10, 0, 0, 0, 0, 0, 0]), 1.0);
    assert_eq!(gds::real([0xc1, 0x20, 0, 0, 0, 0, 0, 0]), -2.0);
    assert_eq!(gds::real([0x40, 0x80, 0, 0, 0, 0, 0, 0]), 0.5);
    assert_eq!(gds::real([0x42, 0x64, 0, 0, 0, 0, 0, 0]), 100.0);
    assert_eq!(gds::real([0; 8]), 0.0);
}

#[test]
fn texts_that_are_altered() {
    let layout_ticket = ticket();
    let layout = Layout::laid(&layout_ticket).unwrap();
    let (text, layers) = (layout.def(), layout.lef());
    let technology = lef::read(&layers).unwrap();
    assert!(def::read(&text, &technology).is_ok());
    for altered in altered(&layers) {
        assert!(lef::read(&altered).is_err(), "{altered}");
    }
    for altered in altered(&text) {
        assert!(def::read(&altered, &technology).is_err(), "{altered}");
    }
    for section in ["VIAS", "PINS", "NETS"] {
        let (before, after) = text.split_once(&format!("\n{section} ")).unwrap();
        let (count, after) = after.split_once(" ;").unwrap();
        let count: usize = count.parse().unwrap();
        for wrong in [0, count - 1, count + 1] {
            let altered = format!("{before}\n{section} {wrong} ;{after}");
            assert!(def::read(&altered, &technology).is_err(), "{section} {wrong}");
        }
    }
    for (word, other) in [("metal1", "metal0"), ("VERSION 5.8", "VERSION 5.7"), ("INOUT", "INPUT"), ("m1_m2", "m0_m1"), (" N ", " S ")] {
        assert!(def::read(&text.replacen(word, other, 1), &technology).is_err(), "{word}");
    }
}

/// A pin at either end of a net of two bars on two metals, with a via between them.
fn small() -> (Vec<Rectangle>, Vec<Label>) {
    let drawn = |layer: u16, purpose: u16, a, b| Rectangle::between(layer, purpose, a, b).widened(STEP / 4);
    let (start, turn, end) = ((0, 0), (0, STEP), (STEP, STEP));
    let bars = [drawn(1, DRAWN, start, turn), drawn(1, CUT, turn, turn), drawn(2, DRAWN, turn, end)];
    let pins = [start, end].map(|place| drawn(PINS, DRAWN, place, place));
    let labels = [start, end].map(|place| Label { layer: PINS, purpose: TEXT, place, text: "a".to_string() });
    ([&bars[..], &pins].concat(), labels.to_vec())
}

#[test]
fn drawings_that_are_altered() {
    let (rectangles, labels) = small();
    assert_eq!(extracted(&rectangles, &labels).unwrap(), ["a"; 5]);
    for index in 0..rectangles.len() {
        let mut less = rectangles.clone();
        let part = less.remove(index);
        assert!(extracted(&less, &labels).is_err(), "without {part:?}");
        for layer in [0, part.layer + 2, PINS + 1] {
            let elsewhere = [&less[..], &[Rectangle { layer, ..part }]].concat();
            assert!(extracted(&elsewhere, &labels).is_err(), "{part:?} on {layer}");
        }
        let far = [&less[..], &[part.moved((3 * STEP, 0))]].concat();
        assert!(extracted(&far, &labels).is_err(), "{part:?} too far east");
    }
    let loose = rectangles[0].moved((5 * STEP, 0));
    assert!(extracted(&[&rectangles[..], &[loose]].concat(), &labels).is_err(), "loose metal");
    let [a, b] = &labels[..] else { unreachable!() };
    let other = |label: &Label| Label { text: "b".to_string(), ..label.clone() };
    let away = Label { place: (0, STEP), ..a.clone() };
    for wrong in [vec![a.clone()], vec![a.clone(), other(b)], vec![a.clone(), a.clone()], vec![away, b.clone()], vec![]] {
        assert!(extracted(&rectangles, &wrong).is_err(), "{wrong:?}");
    }
}

/// Metals that only touch are joined; a via that only touches a metal is not.
#[test]
fn drawings_that_touch() {
    let (mut rectangles, labels) = small();
    rectangles[2].west = rectangles[2].east - STEP / 2;
    assert!(extracted(&rectangles, &labels).is_err(), "a gap");
    let gap = Rectangle { west: rectangles[1].west, east: rectangles[2].west, ..rectangles[2] };
    assert!(extracted(&[&rectangles[..], &[gap]].concat(), &labels).is_ok(), "the gap is filled");
    let beside = Rectangle { west: rectangles[1].east, ..gap };
    assert!(extracted(&[&rectangles[..], &[beside]].concat(), &labels).is_err(), "beside the via");
}
