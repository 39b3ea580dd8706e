//! The best wiring that a squeeze finds is legal, and its line says what is known; and a wiring's file.

mod common;

use common::{extremes, ticket};
use pozqaben::{edge_floor, hardest_box, lay, squeeze, survey, Effort, Kind, Known, NoWiring, Progress, SearchError, Squeezed, Wiring};
use slow::layers::fewest;
use slow::tickets::{every, of_shape, rings, Numbers, DOCUMENT};
use slow::BOX;

const SMALL: Effort = Effort { budget: 500, seed: 1 };

fn quietly(_: Progress) {}

/// What a squeeze finds for a good ticket, after it was looked at.
fn squeezed(t: &[u8], effort: Effort) -> Squeezed {
    let mut tried = Vec::new();
    let squeezed = squeeze(t, effort, &mut |p| {
        assert!(p.routed <= effort.budget, "{p:?} {t:?}");
        tried.push(p.k);
    });
    let squeezed = squeezed.expect("a ticket that is laid");
    let wiring = &squeezed.wiring;
    assert_eq!(wiring.check(t), Ok(()), "{t:?}");
    let by_slow = slow::judge::check(t, wiring.w, wiring.k, wiring.first, &wiring.points, wiring.points.len());
    assert_eq!(by_slow, Ok(()), "{t:?}");
    let (figures, floors) = (survey(t).unwrap(), edge_floor(t).unwrap());
    if figures.kind == Kind::Box {
        assert_eq!(squeezed.known, Known::Layers { edge_floor: floors.edge_floor, laid: figures.layers }, "{t:?}");
        assert!(floors.edge_floor <= wiring.k && wiring.k <= figures.layers, "{t:?}");
        assert!(tried.is_sorted_by(|a, b| a >= b), "{t:?}");
        assert!(tried.iter().all(|k| (floors.edge_floor.max(wiring.k - 1)..figures.layers).contains(k)), "{tried:?} {t:?}");
    } else {
        assert!(tried.is_empty() && *wiring == Wiring::from(lay(t).unwrap()), "{t:?}");
    }
    assert_eq!(Wiring::from_file(&wiring.to_file()).as_ref(), Ok(wiring), "{t:?}");
    squeezed
}

#[test]
fn random_boxes() {
    let r = &mut Numbers::new(301);
    for _ in 0..60 {
        let (n, w, tenths) = (1 + r.below(20), 1 + r.below(20), 2 + r.below(9));
        let t = of_shape(r, BOX, n, w, tenths);
        let above = squeezed(&t, SMALL).wiring.k - edge_floor(&t).unwrap().edge_floor;
        assert!(above <= 2, "{above} {t:?}");
    }
}

#[test]
fn extreme_boxes() {
    for (n, w) in [(1, 1), (1, 90), (90, 1), (20, 20)] {
        let full = of_shape(&mut Numbers::new(303), BOX, n, w, 10);
        for t in [full, hardest_box(n, w).unwrap()] {
            let above = squeezed(&t, SMALL).wiring.k - edge_floor(&t).unwrap().edge_floor;
            assert!(above <= 1, "{n} by {w}: {above}");
        }
    }
}

/// Every box of these shapes is squeezed to the fewest layers that any legal wiring of it has.
#[test]
fn every_small_box() {
    for (n, w) in [(1, 1), (1, 2), (2, 1), (1, 3), (3, 1), (2, 2)] {
        for t in every(BOX, n, w) {
            let best = fewest(&slow::read::read(&t).expect("a good ticket"));
            assert_eq!(squeezed(&t, SMALL).wiring.k, best, "{t:?}");
        }
    }
}

#[test]
fn dense_box() {
    let t = std::fs::read("../../examples/dense-40x12.ticket").expect("a file of the repository");
    assert_eq!(squeezed(&t, Effort::default()).to_string(), "9 layers found, floor 9: no legal wiring has fewer");
    // Without a net routed, what is laid is the best.
    let none = squeezed(&t, Effort { budget: 0, seed: 1 });
    assert_eq!(none.to_string(), "12 layers laid, floor 9: whether 9 to 11 can be wired is not known");
}

/// On a budget of little more than a round, five layers are not found, and four not tried.
#[test]
fn gives_up_where_neither_first_direction_is_found() {
    let squeezed = squeezed(&hardest_box(40, 40).unwrap(), Effort { budget: 85, seed: 1 });
    assert_eq!(squeezed.to_string(), "6 layers laid, floor 4: whether 4 or 5 can be wired is not known");
}

#[test]
fn full_boxes() {
    for (n, w, line) in [(20, 20, "4 layers found, floor 4"), (40, 40, "4 layers found, floor 4"), (40, 12, "9 layers found, floor 9")] {
        let squeezed = squeezed(&hardest_box(n, w).unwrap(), Effort::default());
        assert_eq!(squeezed.to_string(), format!("{line}: no legal wiring has fewer"), "{n} by {w}");
    }
}

#[test]
fn other_kinds() {
    let known = |t: &[u8]| squeezed(t, SMALL).known;
    for (name, t) in DOCUMENT {
        match survey(t).map(|figures| figures.kind) {
            Ok(Kind::Row | Kind::Channel) => assert_eq!(known(t), Known::Tracks { trunk_layers: t[2] as usize }, "{name}"),
            Ok(_) => assert!(matches!(known(t), Known::Layers { .. }), "{name}"),
            Err(refusal) => assert_eq!(squeeze(t, SMALL, &mut quietly), Err(SearchError::Refused(refusal)), "{name}"),
        }
    }
    assert_eq!(known(&rings(8)), Known::Nothing);
}

/// The refusals are Lay's: Read's, and 17 of a solid two-layer channel.
#[test]
fn refused_tickets() {
    let r = &mut Numbers::new(305);
    let mut refused = 0;
    for t in extremes().into_iter().chain((0..5000).map(|_| ticket(r))) {
        if let Err(refusal) = lay(&t) {
            refused += 1;
            assert_eq!(squeeze(&t, SMALL, &mut quietly), Err(SearchError::Refused(refusal)), "{t:?}");
        }
    }
    assert!(refused > 2000, "{refused}");
}

#[test]
fn files() {
    let wiring = Wiring { n: 2, w: 1, k: 2, first: true, points: vec![1, b'\n', 0, 200] };
    let file = b"wiring length 2 width 1 layers 2 first horizontal\n\x01\n\x00\xc8";
    assert_eq!(wiring.to_file(), file);
    assert_eq!(Wiring::from_file(file), Ok(wiring.clone()));
    assert_eq!(wiring.layer(2), Ok(&[0, 200][..]));
    for end in 0..file.len() - 4 {
        assert_eq!(Wiring::from_file(&file[..end]), Err(NoWiring::Header), "{end}");
    }
    assert_eq!(Wiring::from_file(&file[..file.len() - 1]), Err(NoWiring::Length { points: 3 }));
    assert_eq!(Wiring::from_file(&[&file[..], &[0]].concat()), Err(NoWiring::Length { points: 5 }));
    let lines = [
        "wiring length 02 width 1 layers 2 first vertical",
        "wiring length +2 width 1 layers 2 first vertical",
        "wiring length 2 width 1 layers 2 first diagonal",
        "wiring length 2 width 1 layers 2 first vertical ",
        "wiring length -2 width 1 layers 2 first vertical",
        "wiring length 2 width 1 layers 2",
        "Wiring length 2 width 1 layers 2 first vertical",
        "wiring length 99999999999999999999 width 1 layers 2 first vertical",
    ];
    for line in lines {
        assert_eq!(Wiring::from_file(format!("{line}\n1234").as_bytes()), Err(NoWiring::Header), "{line}");
    }
    let large = format!("wiring length {} width {} layers 2 first vertical\n", usize::MAX, usize::MAX);
    assert_eq!(Wiring::from_file(large.as_bytes()), Err(NoWiring::Length { points: 0 }));
    assert_eq!(Wiring::from_file(b"wiring \xff\n"), Err(NoWiring::Header));
}

/// No bytes make the reader panic, and what it takes is written as it was.
#[test]
fn damaged_files() {
    let r = &mut Numbers::new(307);
    let (laid, points) = lay(&hardest_box(4, 3).unwrap()).unwrap();
    let file = Wiring::from((laid, points)).to_file();
    let mut taken = 0;
    for _ in 0..20_000 {
        let damaged = slow::tickets::damaged(r, &file);
        if let Ok(wiring) = Wiring::from_file(&damaged) {
            taken += 1;
            assert_eq!(wiring.to_file(), damaged);
        }
    }
    assert!(taken > 1000, "{taken}");
}
