//! The pictures: every run, via and pin is in them once, the nets are called by their names, and the text is that of an SVG.

use pozqaben::{lay, Layout, Ticket, Wiring};
use slow::tickets::{random, Numbers};

/// How often a word is in the picture.
fn count(svg: &str, word: &str) -> usize {
    svg.matches(word).count()
}

/// Elements and texts follow each other; no name is taken for an element.
fn is_well_formed(svg: &str) -> bool {
    let elements = ["svg ", "style>", "/style>", "rect ", "text ", "/text>", "path ", "circle ", "/svg>"];
    svg.split('<').skip(1).all(|part| elements.iter().any(|element| part.starts_with(element)) && count(part, ">") == 1)
}

/// Whether the picture is as wide as its lines of words, of which a character takes about 6.
fn is_wide_enough(svg: &str) -> bool {
    let width: usize = svg.split('"').nth(3).and_then(|width| width.parse().ok()).expect("a width");
    let words = svg.lines().filter(|line| line.contains("class=\"words\"") && !line.contains(">layer "));
    words.filter_map(|line| line.split(['<', '>']).nth(2)).all(|words| words.chars().count() * 6 <= width)
}

fn picture(text: &str) -> String {
    let ticket = Ticket::from_file(text.as_bytes()).expect("a good ticket");
    let svg = Layout::laid(&ticket).expect("a ticket that is laid").svg();
    assert!(is_well_formed(&svg) && is_wide_enough(&svg), "{svg}");
    svg
}

#[test]
fn names() {
    let short = picture("channel 4 1\nclk a . b\na clk b .\n");
    // Two pins, each on two layers, and the runs that have room for a name.
    assert_eq!(["clk", "a", "b"].map(|name| count(&short, &format!(">{name}</text>")) >= 4), [true; 3], "{short}");
    assert_eq!(["1", "2", "3"].map(|number| count(&short, &format!(">{number}"))), [0; 3], "{short}");
    let long = picture("channel 4 1\nclk a[3] . b<1>\na[3] clk b<1> .\n");
    assert!(long.contains(">1 clk, 2 a[3], 3 b&lt;1&gt;</text>"), "{long}");
    assert_eq!([1, 2, 3].map(|net| count(&long, &format!(">{net}</text>")) >= 4), [true; 3], "{long}");
    let others = Ticket::from_file(b"channel 2 8 a b b a").unwrap();
    let mut wiring = Wiring::from(lay(others.bytes()).unwrap());
    wiring.points.extend(vec![0; wiring.n * wiring.w * (255 - wiring.k)]);
    wiring.k = 255;
    let others = Layout::of(&others, wiring).unwrap().svg();
    assert!(others.contains("drawn here: 1 track, 255 layers; no legal wiring with at most 8") && is_wide_enough(&others), "{others}");
    let angle = picture("row 2 1 a<> a<>");
    assert!(angle.contains(">a&lt;&gt;</text>"), "{angle}");
}

/// A long list of names is broken into lines, and no name is left out.
#[test]
fn many_names() {
    let side: String = (1..=40).map(|net| format!("signal_{net} ")).collect();
    let svg = picture(&format!("channel 40 2 {side} {side}"));
    let words = |start: &str| svg.lines().filter(|line| line.contains(start)).count();
    assert!((1..=40).all(|net| count(&svg, &format!("{net} signal_{net}<")) + count(&svg, &format!("{net} signal_{net},")) >= 1));
    assert!(words("class=\"words\"") > 5, "{svg}");
}

/// As many vias of each sort as the wiring has, and a pin for each layer that reaches it.
#[test]
fn parts() {
    let r = &mut Numbers::new(421);
    for _ in 0..100 {
        let t = random(r);
        let Ok(laid) = lay(&t) else { continue };
        let wiring = Wiring::from(laid);
        let ticket = Ticket::new(t.clone()).unwrap();
        let svg = Layout::laid(&ticket).unwrap().svg();
        assert!(is_well_formed(&svg));
        let layer = wiring.n * wiring.w;
        let vias = wiring.points.iter().zip(&wiring.points[layer..]).filter(|(a, b)| a == b && **a != 0).count();
        assert_eq!((count(&svg, "r=\"2\""), count(&svg, "r=\"4\"")), (vias, vias), "{t:?}");
        let horizontal = (1..=wiring.k).filter(|l| (l % 2 == 1) == wiring.first).count();
        let reached = slow::read::read(&t).unwrap().pins.into_iter().map(|pin| match pin.side {
            slow::NORTH | slow::SOUTH => wiring.k - horizontal,
            _ => horizontal,
        });
        assert_eq!(count(&svg, "class=\"pin\""), reached.sum::<usize>(), "{t:?}");
    }
}
