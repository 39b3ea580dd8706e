//! Flat tickets: a ticket turned flat and back is the same bytes, and so is a flat one turned and back; and what is refused.

use slow::flat::{flatten, flatten_answer, read_flat, unflatten, unflatten_answer};
use slow::read::read;
use slow::tickets::{encode, every, of_shape, random, slots, Numbers, DOCUMENT};
use slow::{Refusal, BOX, CHANNEL, LARGEST_NET, LONGEST_FLAT, LONGEST_SIDE, LONGEST_TICKET, MOST_TRUNK_LAYERS, ROW, TWO_LAYER};
use std::collections::BTreeSet;

/// Shapes of every kind with few places: kind, n, byte 2.
fn small_shapes(most: usize) -> Vec<(u8, usize, usize)> {
    let mut out = Vec::new();
    for n in 1..=most {
        out.extend([(ROW, n, 1), (ROW, n, MOST_TRUNK_LAYERS), (CHANNEL, n, 1), (CHANNEL, n, MOST_TRUNK_LAYERS), (TWO_LAYER, n, 1)]);
        out.extend((1..=most).map(|w| (BOX, n, w)));
    }
    out.retain(|(kind, n, byte2)| slots(*kind, *n, *byte2).len() <= most);
    out
}

/// The flat ticket, after both turns of the ticket and of the flat one.
fn there_and_back(t: &[u8]) -> Vec<u8> {
    let flat = flatten(t).expect("a good ticket");
    assert_eq!(read_flat(&flat), read(t), "{t:?}");
    assert_eq!(unflatten(&flat).as_deref(), Ok(t));
    assert_eq!(flatten(&unflatten(&flat).expect("a good flat ticket")).as_ref(), Ok(&flat));
    flat
}

#[test]
fn every_ticket_of_a_small_shape() {
    let mut tried = 0;
    for (kind, n, byte2) in small_shapes(8) {
        let all = every(kind, n, byte2);
        let flats: BTreeSet<Vec<u8>> = all.iter().map(|t| there_and_back(t)).collect();
        assert_eq!(flats.len(), all.len(), "no two tickets are one flat ticket");
        let length = 3 + slots(kind, n, byte2).len();
        assert!(flats.iter().all(|flat| flat.len() == length && flat[..3] == [kind, n as u8, byte2 as u8]));
        tried += all.len();
    }
    assert!(tried > 35_000, "{tried}");
}

/// Every flat ticket of a small shape with the numbers 0 to 3: it is good exactly when no net has one pin.
#[test]
fn every_flat_ticket_of_a_small_shape() {
    for (kind, n, byte2) in small_shapes(6) {
        let places = slots(kind, n, byte2).len();
        for code in 0..1 << (2 * places) {
            let numbers: Vec<u8> = (0..places).map(|i| (code >> (2 * i)) as u8 % 4).collect();
            let flat = [&[kind, n as u8, byte2 as u8], &numbers[..]].concat();
            let lone = (1..=3).find(|net| numbers.iter().filter(|x| *x == net).count() == 1);
            match unflatten(&flat) {
                Ok(t) => assert_eq!((flatten(&t).as_ref(), lone), (Ok(&flat), None)),
                Err(refusal) => assert_eq!(Some(refusal), lone.map(|net| Refusal(9, net as usize)), "{flat:?}"),
            }
        }
    }
}

#[test]
fn random_tickets() {
    let r = &mut Numbers::new(47);
    (0..5000).for_each(|_| drop(there_and_back(&random(r))));
}

#[test]
fn tickets_of_the_document() {
    let flats: [(&str, &[u8]); 7] = [
        ("R1", &[1, 6, 1, 1, 2, 1, 3, 2, 3]),
        ("R3", &[1, 6, 1, 0, 0, 0, 0, 0, 0]),
        ("C1", &[2, 2, 1, 1, 2, 2, 1]),
        ("C2", &[2, 3, 1, 1, 1, 0, 0, 2, 2]),
        ("B1", &[3, 1, 1, 1, 0, 1, 0]),
        ("B2", &[3, 2, 2, 1, 2, 2, 1, 0, 0, 0, 0]),
        ("box", &[3, 4, 1, 1, 2, 3, 4, 4, 3, 2, 1, 0, 0]),
    ];
    for (name, flat) in flats {
        let (_, t) = DOCUMENT.iter().find(|(n, _)| *n == name).expect("a ticket of the document");
        assert_eq!(there_and_back(t), flat, "{name}");
    }
    for (name, t) in DOCUMENT {
        assert_eq!(flatten(t).err(), read(t).err(), "{name}");
    }
}

#[test]
fn longest() {
    for net in [1, LARGEST_NET] {
        let pins = slots(BOX, LONGEST_SIDE, LONGEST_SIDE).into_iter().map(|place| (place, net)).collect();
        let t = encode(BOX, LONGEST_SIDE, LONGEST_SIDE, &pins);
        assert_eq!((there_and_back(&t).len(), t.len()), (LONGEST_FLAT, LONGEST_TICKET));
    }
}

fn refused(flat: &[u8], number: u8, place: usize) {
    assert_eq!(unflatten(flat), Err(Refusal(number, place)), "{flat:?}");
}

#[test]
fn headers() {
    refused(&[], 1, 0);
    refused(&[0, 0], 1, 2);
    refused(&[0, 0, 0], 1, 3);
    for kind in [0, 5, 128 + ROW, 255] {
        refused(&[kind, 0, 0, 255], 2, 0);
    }
    for kind in [ROW, CHANNEL, BOX, TWO_LAYER] {
        refused(&[kind, 0, 0, 255], 3, 1);
        refused(&[kind, 91, 0, 255], 3, 1);
        refused(&[kind, 1, 0, 255], 4, 2);
    }
    for (kind, most) in [(ROW, 8), (CHANNEL, 8), (BOX, 90), (TWO_LAYER, 1)] {
        refused(&[kind, 1, most + 1, 255], 4, 2);
        refused(&[kind, 1, most, 255], 7, 3);
    }
}

/// Byte 3 is a place, not a side map, and 0 is an empty one.
#[test]
fn places() {
    assert_eq!(unflatten(&[1, 1, 1, 0]), Ok(vec![1, 1, 1, 0]));
    assert_eq!(unflatten(&[1, 2, 1, 180, 180]), Ok(vec![1, 2, 1, 1, 3, 180, 180]));
    assert_eq!(unflatten(&[4, 2, 1, 0, 7, 7, 0]), Ok(vec![4, 2, 1, 3, 2, 7, 1, 7]));
    assert_eq!(unflatten(&[3, 1, 2, 0, 0, 0, 9, 9, 0]), Ok(vec![3, 1, 2, 12, 2, 9, 1, 9]));
    refused(&[1, 1, 1, 2], 9, 2);
}

/// Of 1, 7, 8 and 9 the first byte has the say, then what is left over, then lone nets.
#[test]
fn order_of_refusals() {
    refused(&[1, 3, 1, 181], 7, 3);
    refused(&[1, 3, 1, 5, 255], 7, 4);
    refused(&[1, 3, 1, 5, 0], 1, 5);
    refused(&[1, 3, 1, 5, 0, 181, 1], 7, 5);
    refused(&[1, 3, 1, 5, 0, 0, 181], 8, 6);
    refused(&[1, 3, 1, 5, 5, 0, 0, 0], 8, 6);
    refused(&[1, 3, 1, 5, 4, 0], 9, 4);
    refused(&[3, 1, 1, 180, 90, 0, 0], 9, 90);
}

#[test]
fn every_cut_and_every_byte_above() {
    let r = &mut Numbers::new(53);
    for (kind, n, byte2) in [(ROW, 9, 2), (CHANNEL, 5, 3), (BOX, 4, 3), (BOX, 2, 7), (TWO_LAYER, 6, 1)] {
        for tenths in [0, 6, 10] {
            let flat = flatten(&of_shape(r, kind, n, byte2, tenths)).expect("a good ticket");
            for size in 0..flat.len() {
                refused(&flat[..size], 1, size);
            }
            refused(&[&flat[..], &[0]].concat(), 8, flat.len());
            for at in 3..flat.len() {
                let mut bad = flat.clone();
                bad[at] = 181 + r.below(75) as u8;
                for size in at + 1..=flat.len() {
                    refused(&bad[..size], 7, at);
                }
                for size in 4..=at {
                    refused(&bad[..size], 1, size);
                }
                refused(&[&bad[..], &[0]].concat(), 7, at);
            }
        }
    }
}

const STAIN: u8 = 170;

/// The answer to a buffer of so many bytes, which beyond the first ones of the right bytes are as they were.
fn answered(call: fn(&[u8], &mut [u8]) -> [u64; 3], from: &[u8], right: &[u8], size: usize) -> [u64; 3] {
    let mut buffer = vec![STAIN; size];
    let answer = call(from, &mut buffer);
    let (front, rest) = buffer.split_at(answer[2] as usize);
    assert!(front.is_empty() || front == right);
    assert!(rest.iter().all(|b| *b == STAIN));
    answer
}

#[test]
fn buffers_around_the_length_needed() {
    let r = &mut Numbers::new(59);
    for _ in 0..300 {
        let t = random(r);
        let flat = there_and_back(&t);
        for (call, from, right) in [(flatten_answer as fn(&[u8], &mut [u8]) -> _, &t, &flat), (unflatten_answer, &flat, &t)] {
            let (length, needed) = (right.len(), right.len() as u64);
            assert_eq!([0, 1, length - 1].map(|size| answered(call, from, right, size)), [[19, needed, 0]; 3]);
            assert_eq!([length, length + 1, 1000].map(|size| answered(call, from, right, size)), [[0, 0, needed]; 3]);
            let cut = &from[..from.len() - 1];
            let number = call(cut, &mut [])[0];
            assert!(number != 0 && number != 19, "a refusal of its own comes first: {cut:?}");
        }
    }
}
