//! GDSII: a library of one structure, rectangles and labels.

use super::{around, Layout, Rectangle, HALF_METAL, HALF_VIA};

/// A record's number and the type of its data, as the format counts them.
const HEADER: u16 = 0x0002;
const BGNLIB: u16 = 0x0102;
const LIBNAME: u16 = 0x0206;
const UNITS: u16 = 0x0305;
const ENDLIB: u16 = 0x0400;
const BGNSTR: u16 = 0x0502;
const STRNAME: u16 = 0x0606;
const ENDSTR: u16 = 0x0700;
const BOUNDARY: u16 = 0x0800;
const TEXT: u16 = 0x0c00;
const LAYER: u16 = 0x0d02;
const DATATYPE: u16 = 0x0e02;
const XY: u16 = 0x1003;
const ENDEL: u16 = 0x1100;
const TEXTTYPE: u16 = 0x1602;
const STRING: u16 = 0x1906;

const VERSION: i16 = 600;
/// The first of January 1970, twice: made and last used. A wiring's file is the same whenever it is written.
const TIMES: [i16; 12] = [1970, 1, 1, 0, 0, 0, 1970, 1, 1, 0, 0, 0];
/// A thousandth of a micrometre, and a nanometre in metres, in the format's own reals: base 16, the exponent plus 64 first.
const THOUSANDTH: u64 = 0x3e41_8937_4bc6_a7f0;
const NANOMETRE: u64 = 0x3944_b82f_a09b_5a54;

/// What is drawn on a layer.
const METAL: i16 = 0;
const VIA: i16 = 1;
const PIN: i16 = 0;
const LABEL: i16 = 10;
/// The layer of pins and labels, after the most layers of a wiring.
const PINS: i16 = 256;

struct Stream {
    bytes: Vec<u8>,
}

impl Stream {
    fn record(&mut self, kind: u16, data: &[u8]) {
        let length = u16::try_from(data.len() + 4).expect("a short record");
        self.bytes.extend(length.to_be_bytes());
        self.bytes.extend(kind.to_be_bytes());
        self.bytes.extend(data);
    }

    fn numbers(&mut self, kind: u16, numbers: &[i16]) {
        self.record(kind, &numbers.iter().flat_map(|number| number.to_be_bytes()).collect::<Vec<u8>>());
    }

    fn points(&mut self, points: &[[i32; 2]]) {
        self.record(XY, &points.iter().flatten().flat_map(|number| number.to_be_bytes()).collect::<Vec<u8>>());
    }

    /// A string, filled up to an even length.
    fn string(&mut self, kind: u16, string: &str) {
        let mut bytes = string.as_bytes().to_vec();
        bytes.resize(bytes.len().next_multiple_of(2), 0);
        self.record(kind, &bytes);
    }

    fn rectangle(&mut self, layer: i16, datatype: i16, [west, south, east, north]: Rectangle) {
        self.record(BOUNDARY, &[]);
        self.numbers(LAYER, &[layer]);
        self.numbers(DATATYPE, &[datatype]);
        self.points(&[[west, south], [west, north], [east, north], [east, south], [west, south]]);
        self.record(ENDEL, &[]);
    }

    fn label(&mut self, layer: i16, texttype: i16, at: [i32; 2], string: &str) {
        self.record(TEXT, &[]);
        self.numbers(LAYER, &[layer]);
        self.numbers(TEXTTYPE, &[texttype]);
        self.points(&[at]);
        self.string(STRING, string);
        self.record(ENDEL, &[]);
    }
}

pub fn library(layout: &Layout) -> Vec<u8> {
    let mut stream = Stream { bytes: Vec::new() };
    stream.numbers(HEADER, &[VERSION]);
    stream.numbers(BGNLIB, &TIMES);
    stream.string(LIBNAME, "pozqaben");
    stream.record(UNITS, &[THOUSANDTH.to_be_bytes(), NANOMETRE.to_be_bytes()].concat());
    stream.numbers(BGNSTR, &TIMES);
    stream.string(STRNAME, &layout.name());
    for l in layout.layers() {
        layout.bars(l).iter().for_each(|bar| stream.rectangle(l as i16, METAL, around(bar.from, bar.to, HALF_METAL)));
        layout.vias(l).iter().for_each(|p| stream.rectangle(l as i16, VIA, around(*p, *p, HALF_VIA)));
    }
    for pin in &layout.pins {
        let at = layout.outside(pin);
        let [x, y, ..] = around(at, at, 0);
        stream.rectangle(PINS, PIN, around(at, at, HALF_METAL));
        stream.label(PINS, LABEL, [x, y], &layout.ticket.name(pin.net));
    }
    stream.record(ENDSTR, &[]);
    stream.record(ENDLIB, &[]);
    stream.bytes
}
