//! A strict reader of GDSII streams: a library of one structure, which has rectangles and labels alone.

use crate::shapes::{Label, Place, Rectangle};

/// A record's number and the type of its data, its third and fourth byte.
type Tag = u16;
const HEADER: Tag = 0x0002;
const BGNLIB: Tag = 0x0102;
const LIBNAME: Tag = 0x0206;
const UNITS: Tag = 0x0305;
const ENDLIB: Tag = 0x0400;
const BGNSTR: Tag = 0x0502;
const STRNAME: Tag = 0x0606;
const ENDSTR: Tag = 0x0700;
const BOUNDARY: Tag = 0x0800;
const TEXT: Tag = 0x0c00;
const LAYER: Tag = 0x0d02;
const DATATYPE: Tag = 0x0e02;
const XY: Tag = 0x1003;
const ENDEL: Tag = 0x1100;
const TEXTTYPE: Tag = 0x1602;
const STRING: Tag = 0x1906;

/// A record's length and tag.
const RECORD_START: usize = 4;
/// The versions of the format that have these records.
const VERSIONS: [i16; 6] = [3, 4, 5, 6, 7, 600];
/// A database unit is a nanometre, and a user unit a micrometre.
const MICROMETRES_OF_A_UNIT: f64 = 1e-3;
const METRES_OF_A_UNIT: f64 = 1e-9;
/// How far a real may be off, as a part of it.
const TOLERANCE: f64 = 1e-15;
/// Year, month, day, hour, minute and second: the least and the most.
const DATE: [(i16, i16); 6] = [(1900, 9999), (1, 12), (1, 31), (0, 23), (0, 59), (0, 59)];
/// The corners of a rectangle, the first one again at the end.
const CORNERS: usize = 5;
const LONGEST_STRING: usize = 512;
/// What a structure's name has beside letters and digits.
const MARKS_OF_NAMES: &str = "_?$";

pub struct Library {
    pub rectangles: Vec<Rectangle>,
    pub labels: Vec<Label>,
}

/// The records of a stream, with their lengths and tags.
pub fn records(stream: &[u8]) -> Result<Vec<&[u8]>, String> {
    let mut records = Vec::new();
    let mut rest = stream;
    while !rest.is_empty() {
        let length = rest.first_chunk().map_or(0, |length| u16::from_be_bytes(*length)) as usize;
        if length < RECORD_START || length % 2 == 1 || length > rest.len() {
            return Err(format!("record {} of {} bytes left has length {length}", records.len(), rest.len()));
        }
        let (record, following) = rest.split_at(length);
        records.push(record);
        rest = following;
    }
    Ok(records)
}

struct Reader<'a> {
    records: Vec<&'a [u8]>,
    /// The next one.
    at: usize,
}

impl<'a> Reader<'a> {
    fn tag(&self) -> Result<Tag, String> {
        let record = self.records.get(self.at).ok_or("the stream ends too soon")?;
        Ok(u16::from_be_bytes([record[2], record[3]]))
    }

    fn fault<T>(&self, what: &str) -> Result<T, String> {
        Err(format!("record {}: {what}", self.at))
    }

    /// The data of the next record, which has this tag.
    fn data(&mut self, tag: Tag) -> Result<&'a [u8], String> {
        if self.tag()? != tag {
            return self.fault(&format!("{:04x} where {tag:04x} should be", self.tag()?));
        }
        self.at += 1;
        Ok(&self.records[self.at - 1][RECORD_START..])
    }

    fn empty(&mut self, tag: Tag) -> Result<(), String> {
        match self.data(tag)? {
            [] => Ok(()),
            _ => self.fault("data where none should be"),
        }
    }

    /// The record's data in so many parts of N bytes.
    fn parts<const N: usize>(&mut self, tag: Tag, count: usize) -> Result<Vec<[u8; N]>, String> {
        let data = self.data(tag)?;
        if data.len() != count * N {
            return self.fault(&format!("{} bytes of data where {count} times {N} should be", data.len()));
        }
        Ok(data.chunks(N).map(|part| part.try_into().expect("a part's length")).collect())
    }

    fn short(&mut self, tag: Tag) -> Result<i16, String> {
        Ok(i16::from_be_bytes(self.parts(tag, 1)?[0]))
    }

    fn layer_number(&mut self, tag: Tag) -> Result<u16, String> {
        u16::try_from(self.short(tag)?).map_err(|_| format!("record {}: a negative number of a layer", self.at))
    }

    /// When it was made, and last used.
    fn dates(&mut self, tag: Tag) -> Result<(), String> {
        let numbers = self.parts(tag, 2 * DATE.len())?.into_iter().map(i16::from_be_bytes);
        let are_dates = numbers.zip(DATE.iter().chain(&DATE)).all(|(number, (least, most))| (*least..=*most).contains(&number));
        if are_dates {
            Ok(())
        } else {
            self.fault("no date")
        }
    }

    /// A string of printed characters, which a zero byte fills up to an even length.
    fn string(&mut self, tag: Tag) -> Result<String, String> {
        let data = self.data(tag)?;
        let string = data.strip_suffix(&[0]).unwrap_or(data);
        if string.is_empty() || data.len() > LONGEST_STRING || !string.iter().all(u8::is_ascii_graphic) {
            return self.fault("no string of printed characters");
        }
        Ok(string.iter().map(|byte| char::from(*byte)).collect())
    }

    fn places(&mut self, count: usize) -> Result<Vec<Place>, String> {
        let numbers: Vec<i32> = self.parts(XY, 2 * count)?.into_iter().map(i32::from_be_bytes).collect();
        Ok(numbers.chunks(2).map(|place| (place[0], place[1])).collect())
    }

    fn units(&mut self) -> Result<(), String> {
        let reals: Vec<f64> = self.parts(UNITS, 2)?.into_iter().map(real).collect();
        let is_near = |real: f64, exact: f64| (real / exact - 1.0).abs() < TOLERANCE;
        if is_near(reals[0], MICROMETRES_OF_A_UNIT) && is_near(reals[1], METRES_OF_A_UNIT) {
            Ok(())
        } else {
            self.fault(&format!("units {reals:?}"))
        }
    }

    fn boundary(&mut self) -> Result<Rectangle, String> {
        self.empty(BOUNDARY)?;
        let (layer, purpose) = (self.layer_number(LAYER)?, self.layer_number(DATATYPE)?);
        let corners = self.places(CORNERS)?;
        self.empty(ENDEL)?;
        let rectangle = Rectangle::between(layer, purpose, corners[0], corners[2]);
        if corners[0] != corners[CORNERS - 1] || !turns_at_corners(&corners) || !rectangle.has_area() {
            return self.fault(&format!("no closed rectangle: {corners:?}"));
        }
        Ok(rectangle)
    }

    fn label(&mut self) -> Result<Label, String> {
        self.empty(TEXT)?;
        let (layer, purpose) = (self.layer_number(LAYER)?, self.layer_number(TEXTTYPE)?);
        let place = self.places(1)?[0];
        let text = self.string(STRING)?;
        self.empty(ENDEL)?;
        Ok(Label { layer, purpose, place, text })
    }
}

/// The format's own reals: a sign, an exponent of 16 plus 64, and a fraction.
pub fn real(bytes: [u8; 8]) -> f64 {
    const FRACTION_BITS: i32 = 56;
    let fraction = (u64::from_be_bytes(bytes) & ((1 << FRACTION_BITS) - 1)) as f64 / 2f64.powi(FRACTION_BITS);
    let exponent = i32::from(bytes[0] & 0x7f) - 64;
    let sign = if bytes[0] & 0x80 == 0 { 1.0 } else { -1.0 };
    sign * fraction * 16f64.powi(exponent)
}

/// Whether the edges are horizontal and vertical in turn.
fn turns_at_corners(corners: &[Place]) -> bool {
    let is_edge = |index: usize, vertical: bool| match (corners[index], corners[index + 1]) {
        (a, b) if vertical => a.0 == b.0,
        (a, b) => a.1 == b.1,
    };
    let edges = 0..CORNERS - 1;
    [0, 1].into_iter().any(|parity| edges.clone().all(|index| is_edge(index, index % 2 == parity)))
}

pub fn read(stream: &[u8]) -> Result<Library, String> {
    let mut reader = Reader { records: records(stream)?, at: 0 };
    if !VERSIONS.contains(&reader.short(HEADER)?) {
        return reader.fault("an unknown version");
    }
    reader.dates(BGNLIB)?;
    reader.string(LIBNAME)?;
    reader.units()?;
    reader.dates(BGNSTR)?;
    if !reader.string(STRNAME)?.chars().all(|letter| letter.is_ascii_alphanumeric() || MARKS_OF_NAMES.contains(letter)) {
        return reader.fault("no structure's name");
    }
    let mut library = Library { rectangles: vec![], labels: vec![] };
    loop {
        match reader.tag()? {
            BOUNDARY => library.rectangles.push(reader.boundary()?),
            TEXT => library.labels.push(reader.label()?),
            _ => break,
        }
    }
    reader.empty(ENDSTR)?;
    reader.empty(ENDLIB)?;
    if reader.at < reader.records.len() {
        return reader.fault("after the library's end");
    }
    Ok(library)
}
