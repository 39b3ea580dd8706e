//! The safe wrapper's typed answers, and what its refusals say.

use pozqaben::{check, check_with, edge_floor, flatten, flatten_into, hardest_box, hardest_box_into, lay, lay_into, layer_view};
use pozqaben::{read, survey, unflatten, unflatten_into};
use pozqaben::{EdgeFloor, Kind, Laid, Reading, Refusal, Survey};
use slow::tickets::{rings, DOCUMENT};
use slow::{widest, BOX, CHANNEL, ROW, TWO_LAYER};
use std::fmt::Debug;

fn document(name: &str) -> &'static [u8] {
    DOCUMENT.iter().find(|(n, _)| *n == name).expect("a ticket of the document").1
}

#[test]
fn typed_answers() {
    assert_eq!(read(document("R2")), Ok(Reading { kind: Kind::Row, n: 6, byte2: 2, nets: 3 }));
    let box4 = Survey { kind: Kind::Box, n: 4, w: 1, nets: 4, pins: 8, across: 4, up: 4, layers: 12, floor: 7 };
    assert_eq!(survey(document("box")), Ok(box4));
    let channel = Survey { kind: Kind::Channel, n: 2, w: 2, nets: 2, pins: 4, across: 2, up: 0, layers: 3, floor: 0 };
    assert_eq!(survey(document("C1")), Ok(channel));
    let (laid, wiring) = lay(document("B1")).unwrap();
    assert_eq!(laid, Laid { kind: Kind::Box, n: 1, w: 1, k: 6, first: false, nets: 1, across: 1, up: 1, floor: 2 });
    assert_eq!(laid.size(), wiring.len());
    assert_eq!(layer_view(&wiring, 1, 1, 6, 2), Ok(&wiring[1..2]));
    let tall = [3, 1, 2, 12, 3, 1, 2, 3, 1, 2]; // n 1, w 2: turned, so layer 1 is horizontal
    let (laid, wiring) = lay(&tall).unwrap();
    assert!(laid.first);
    assert_eq!(check(&tall, 2, laid.k, true, &wiring), Ok(()));
}

#[test]
fn two_layer_answers() {
    let t = rings(4); // north 1 2 1 2, south 2 1 2 1
    assert_eq!(read(&t), Ok(Reading { kind: Kind::TwoLayer, n: 4, byte2: 1, nets: 2 }));
    let figures = Survey { kind: Kind::TwoLayer, n: 4, w: 0, nets: 2, pins: 8, across: 2, up: 0, layers: 2, floor: 0 };
    assert_eq!(survey(&t), Ok(figures));
    let (laid, wiring) = lay(&t).unwrap();
    assert_eq!(laid, Laid { kind: Kind::TwoLayer, n: 4, w: laid.w, k: 2, first: false, nets: 2, across: 2, up: 0, floor: 0 });
    assert_eq!(laid.size(), wiring.len());
    assert_eq!(check(&t, laid.w, 2, false, &wiring), Ok(()));
}

#[test]
fn two_layer_line() {
    let line = survey(&rings(4)).unwrap().to_string();
    assert_eq!(line, "two-layer length 4 nets 2 pins 8 across 2 layers 2");
}

/// North 1 2, south 2 1: surveyed, and refused by `lay` whatever the buffer.
#[test]
fn two_layer_solid() {
    let solid = [4, 2, 1, 3, 3, 1, 2, 3, 2, 1];
    assert_eq!(survey(&solid).unwrap().to_string(), "two-layer length 2 nets 2 pins 4 across 2 layers 2");
    let text = "refused 17 at 0: the two-layer channel is solid, so that no width has a legal wiring on two layers";
    say(lay(&solid), text);
    say(lay_into(&solid, &mut []), text);
    say(lay_into(&solid, &mut [0; 1000]), text);
}

/// A box 1 long and 2 wide with both west pins on one net: no wiring on one layer is legal, and one on two layers is.
#[test]
fn west_net() {
    let t = document("west net");
    let figures = Survey { kind: Kind::Box, n: 1, w: 2, nets: 1, pins: 2, across: 1, up: 1, layers: 8, floor: 2 };
    assert_eq!(survey(t), Ok(figures));
    assert_eq!(survey(t).unwrap().to_string(), "box length 1 width 2 nets 1 pins 2 across 1 up 1 layers 8 floor 2");
    let (laid, wiring) = lay(t).unwrap();
    assert_eq!(laid, Laid { kind: Kind::Box, n: 1, w: 2, k: 8, first: true, nets: 1, across: 1, up: 1, floor: 2 });
    assert_eq!(check(t, 2, laid.k, laid.first, &wiring), Ok(()));
    for first in [false, true] {
        for x in [[0, 0], [0, 1], [1, 0], [1, 1]] {
            assert_eq!(check(t, 2, 1, first, &x), Err(Refusal { number: 15, place: 1 }), "{first} {x:?}");
        }
        assert_eq!(check(t, 2, 2, first, &[1; 4]), Ok(()), "{first}");
    }
}

#[test]
fn edge_floors() {
    let both = |floor: usize, edge_floor: usize| Ok(EdgeFloor { floor, edge_floor });
    assert_eq!(edge_floor(document("box")), both(7, 7));
    assert_eq!(edge_floor(document("B1")), both(2, 2));
    assert_eq!(edge_floor(document("west net")), both(2, 2));
    // A box 2 long and 2 wide: west 1 1, and a net 2 that column 1 must pass too, north 2 and empty, south empty and 2; turned,
    // south 1 1; and with net 2 on both north places.
    assert_eq!(edge_floor(&[3, 2, 2, 7, 1, 2, 2, 2, 3, 1, 1]), both(2, 3));
    assert_eq!(edge_floor(&[3, 2, 2, 14, 3, 1, 1, 2, 2, 1, 2]), both(2, 3));
    assert_eq!(edge_floor(&[3, 2, 2, 5, 3, 2, 2, 3, 1, 1]), both(2, 4));
    // A box 1 long and 2 wide: a net's pins west and east at one track count once, at two tracks twice.
    assert_eq!(edge_floor(&[3, 1, 2, 12, 3, 1, 2, 3, 1, 2]), both(1, 1));
    assert_eq!(edge_floor(&[3, 1, 2, 12, 3, 1, 2, 3, 2, 1]), both(3, 4));
    assert_eq!(edge_floor(&[3, 4, 3, 0]), both(1, 1));
    for name in ["R2", "C1"] {
        assert_eq!(edge_floor(document(name)), both(0, 0), "{name}");
    }
    assert_eq!(edge_floor(&rings(4)), both(0, 0));
}

/// North 1, south 2, west 1, east 2.
#[test]
fn smallest_hardest_box() {
    let t = [3, 1, 1, 15, 1, 1, 1, 2, 1, 1, 1, 2];
    assert_eq!(hardest_box(1, 1), Ok(t.to_vec()));
    let mut buffer = [9; 14];
    assert_eq!(hardest_box_into(1, 1, &mut buffer), Ok(t.len()));
    assert_eq!(buffer[..], [&t[..], &[9, 9]].concat());
    assert_eq!(survey(&t).unwrap().to_string(), "box length 1 width 1 nets 2 pins 4 across 2 up 2 layers 6 floor 4");
}

/// North 1 and empty, south 2 1, west 2, east empty.
#[test]
fn small_flat_box() {
    let (t, flat) = ([3, 2, 1, 7, 1, 1, 3, 2, 1, 1, 2], [3, 2, 1, 1, 0, 2, 1, 2, 0]);
    assert_eq!((flatten(&t).as_deref(), unflatten(&flat).as_deref()), (Ok(&flat[..]), Ok(&t[..])));
    let mut buffer = [9; 12];
    assert_eq!(flatten_into(&t, &mut buffer), Ok(flat.len()));
    assert_eq!(buffer[..], [&flat[..], &[9, 9, 9]].concat());
    assert_eq!(unflatten_into(&flat, &mut buffer), Ok(t.len()));
    assert_eq!(buffer[..], [&t[..], &[9]].concat());
}

#[test]
fn limits_of_the_document() {
    assert_eq!((pozqaben::LONGEST_SIDE, pozqaben::WIDEST_GRID), (slow::LONGEST_SIDE, slow::WIDEST_GRID));
    let kinds = [(Kind::Row, ROW), (Kind::Channel, CHANNEL), (Kind::Box, BOX), (Kind::TwoLayer, TWO_LAYER)];
    kinds.iter().for_each(|(kind, number)| assert_eq!(kind.widest(), widest(*number), "{kind:?}"));
    assert_eq!((pozqaben::MOST_LAYERS, pozqaben::MOST_TRUNK_LAYERS), (slow::MOST_LAYERS, slow::MOST_TRUNK_LAYERS));
    assert_eq!((pozqaben::LARGEST_NET, pozqaben::LONGEST_TICKET), (slow::LARGEST_NET, slow::LONGEST_TICKET));
    assert_eq!(pozqaben::LONGEST_FLAT, slow::LONGEST_FLAT);
}

#[test]
fn survey_lines() {
    for (name, t) in DOCUMENT {
        let line = survey(t).map_or_else(|r| format!("refused {} at {}", r.number, r.place), |s| s.to_string());
        assert_eq!(line + "\n", slow::survey::line(t), "{name}");
    }
}

/// A refusal's text names number, place and meaning.
fn say<T: Debug>(answer: Result<T, Refusal>, text: &str) {
    assert_eq!(answer.unwrap_err().to_string(), text);
}

#[test]
fn refused_tickets() {
    say(read(document("T1")), "refused 1 at 6: the ticket ends after 6 bytes, before one that is needed");
    say(read(&[0, 1, 1, 0]), "refused 2 at 0: byte 0, the kind, is none of 1 (row), 2 (channel), 3 (box) and 4 (two-layer channel)");
    say(read(document("T4")), "refused 3 at 1: byte 1, the length n, is none of 1 to 90");
    say(
        read(&[1, 1, 9, 0]),
        "refused 4 at 2: byte 2 is none of 1 to 90 (the width of a box) or of 1 to 8 (the trunk layers of a row or channel), \
         or is not 1 (a two-layer channel)",
    );
    say(read(&[1, 1, 1, 2]), "refused 5 at 3: byte 3, the side map, has a side that the kind has not");
    say(read(document("T3")), "refused 6 at 4: the position map at byte 4 has no bit, or a spare bit");
    say(read(&[1, 2, 1, 1, 3, 1, 181]), "refused 7 at 6: the net number at byte 6 is none of 1 to 180");
    say(read(&[1, 2, 1, 0, 5]), "refused 8 at 4: bytes are left over from byte 4 on");
    say(read(document("T2")), "refused 9 at 1: net 1 has one pin only");
}

#[test]
fn refused_edge_floors() {
    say(edge_floor(document("T1")), "refused 1 at 6: the ticket ends after 6 bytes, before one that is needed");
    say(edge_floor(document("T2")), "refused 9 at 1: net 1 has one pin only");
    say(edge_floor(&[3, 1, 91, 0]), &read(&[3, 1, 91, 0]).unwrap_err().to_string());
}

#[test]
fn refused_buffers_and_wirings() {
    let row = [1, 2, 1, 1, 3, 1, 1];
    say(lay_into(&row, &mut [0; 3]), "refused 10 at 4: the wiring buffer is shorter than the 4 bytes that the wiring takes");
    say(
        check(&row, 91, 2, false, &[]),
        "refused 11 at 0: n is none of 1 to 90, or w none of 1 to 90 (of 1 to 157 for a two-layer channel and in a layer view), \
         or k none of 1 to 255, or w is not the box's own",
    );
    say(check(&row, 1, 2, false, &[1; 3]), "refused 12 at 4: the wiring's length is not n * w * k, which is 4");
    say(check_with(&row, 1, 2, false, &[1; 4], &mut [0; 3]), "refused 13 at 4: the scratch is shorter than the 4 bytes that it must have");
    say(check(&row, 1, 2, false, &[1, 1, 1, 2]), "refused 14 at 3: the point at byte 3 of the wiring holds no net of the ticket");
    say(check(&row, 1, 2, false, &[1, 1, 0, 0]), "refused 15 at 1: net 1 is not in one piece");
    say(layer_view(&[0; 4], 2, 1, 2, 3), "refused 16 at 3: the wiring has no layer 3");
}

#[test]
fn refused_hardest_boxes() {
    say(hardest_box(0, 12), "refused 18 at 0: a side of the box, n or w, is none of 1 to 90");
    say(hardest_box(40, 91), "refused 18 at 0: a side of the box, n or w, is none of 1 to 90");
    say(hardest_box_into(40, 12, &mut [0; 121]), "refused 19 at 122: the buffer is shorter than the 122 bytes that are to be written");
}

#[test]
fn refused_flat_tickets() {
    say(unflatten(&[1, 3, 1, 4, 4]), "refused 1 at 5: the ticket ends after 5 bytes, before one that is needed");
    say(unflatten(&[0, 1, 1, 0]), "refused 2 at 0: byte 0, the kind, is none of 1 (row), 2 (channel), 3 (box) and 4 (two-layer channel)");
    say(unflatten(&[1, 91, 1, 0]), "refused 3 at 1: byte 1, the length n, is none of 1 to 90");
    say(
        unflatten(&[4, 1, 2, 0]),
        "refused 4 at 2: byte 2 is none of 1 to 90 (the width of a box) or of 1 to 8 (the trunk layers of a row or channel), \
         or is not 1 (a two-layer channel)",
    );
    say(unflatten(&[1, 2, 1, 181, 0]), "refused 7 at 3: the net number at byte 3 is none of 1 to 180");
    say(unflatten(&[1, 2, 1, 4, 4, 0]), "refused 8 at 5: bytes are left over from byte 5 on");
    say(unflatten(&[1, 2, 1, 0, 4]), "refused 9 at 4: net 4 has one pin only");
    let row = [1, 2, 1, 1, 3, 4, 4];
    say(flatten(&row[..6]), "refused 1 at 6: the ticket ends after 6 bytes, before one that is needed");
    say(flatten_into(&row, &mut [0; 4]), "refused 19 at 5: the buffer is shorter than the 5 bytes that are to be written");
    say(unflatten_into(&[1, 2, 1, 4, 4], &mut [0; 6]), "refused 19 at 7: the buffer is shorter than the 7 bytes that are to be written");
}
