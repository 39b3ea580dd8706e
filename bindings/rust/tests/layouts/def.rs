//! A strict reader of DEF, over the layers of a LEF, of what a design of pins and routed nets needs.

use crate::lef::{distinct, Technology, Tokens};
use crate::shapes::{Place, Rectangle, CUT, DRAWN};
use std::collections::BTreeMap;

/// Lines along which a layer's wires stand.
#[derive(Debug, PartialEq, Eq, PartialOrd, Ord)]
pub struct Tracks {
    pub layer: u16,
    pub are_horizontal: bool,
    pub lines: Vec<i32>,
}

#[derive(Debug)]
pub struct Pin {
    pub name: String,
    pub net: String,
    pub place: Place,
    /// On each of its layers, where they stand.
    pub metals: Vec<Rectangle>,
}

#[derive(Debug)]
pub struct Net {
    pub name: String,
    pub pins: Vec<String>,
    /// The metals of its wires and vias, and the vias' cuts.
    pub shapes: Vec<Rectangle>,
}

#[derive(Debug)]
pub struct Design {
    pub die_area: (Place, Place),
    /// The centres of the rows' sites, row by row.
    pub sites: Vec<Place>,
    pub tracks: Vec<Tracks>,
    pub pins: Vec<Pin>,
    pub nets: Vec<Net>,
}

/// Around the place where it stands: metal, cut and metal.
type Via = [Rectangle; 3];

struct Reader<'a> {
    tokens: Tokens<'a>,
    technology: &'a Technology,
    vias: BTreeMap<String, Via>,
}

impl<'a> Reader<'a> {
    /// The entries of a section, whose number it says.
    fn section<T>(&mut self, name: &str, entry: fn(&mut Self) -> Result<T, String>) -> Result<Vec<T>, String> {
        self.tokens.expect(name)?;
        let count = self.tokens.count()?;
        self.tokens.expect(";")?;
        let mut entries = Vec::new();
        while self.tokens.takes("-") {
            entries.push(entry(self)?);
            self.tokens.expect(";")?;
        }
        self.tokens.expect(&format!("END {name}"))?;
        if entries.len() != count {
            return self.tokens.fault(&format!("{} entries where {count} should be", entries.len()));
        }
        Ok(entries)
    }

    /// A layer's number and what is drawn there.
    fn layer(&mut self) -> Result<(u16, u16), String> {
        let name = self.tokens.word()?;
        let metal = self.technology.metals.iter().position(|metal| metal.name == name).map(|index| (index, DRAWN));
        let cut = self.technology.cuts.iter().position(|cut| cut.name == name).map(|index| (index, CUT));
        match metal.or(cut) {
            Some((index, purpose)) => Ok((index as u16 + 1, purpose)),
            None => self.tokens.fault("no layer of the LEF"),
        }
    }

    fn metal(&mut self) -> Result<u16, String> {
        match self.layer()? {
            (layer, DRAWN) => Ok(layer),
            _ => self.tokens.fault("no metal"),
        }
    }

    fn rectangle(&mut self, (layer, purpose): (u16, u16)) -> Result<Rectangle, String> {
        let rectangle = Rectangle::between(layer, purpose, self.tokens.place()?, self.tokens.place()?);
        if !rectangle.has_area() {
            return self.tokens.fault("no rectangle");
        }
        Ok(rectangle)
    }

    /// A row's name, and its sites' centres.
    fn row(&mut self) -> Result<(String, Vec<Place>), String> {
        let tokens = &mut self.tokens;
        let name = tokens.name()?;
        tokens.expect(&self.technology.site.name)?;
        let (x, y) = (tokens.integer()?, tokens.integer()?);
        tokens.expect("N DO")?;
        let columns = tokens.integer()?;
        tokens.expect("BY")?;
        let lines = tokens.integer()?;
        tokens.expect("STEP")?;
        let (east, north) = (tokens.integer()?, tokens.integer()?);
        tokens.expect(";")?;
        if columns < 1 || lines < 1 || (columns > 1 && lines > 1) {
            return tokens.fault("no row");
        }
        let (width, height) = self.technology.site.size;
        let centre = |column: i32, line: i32| (x + column * east + width / 2, y + line * north + height / 2);
        Ok((name, (0..columns).flat_map(|column| (0..lines).map(move |line| centre(column, line))).collect()))
    }

    fn tracks(&mut self) -> Result<Tracks, String> {
        // Tracks at an x are vertical lines.
        let are_horizontal = match self.tokens.word()? {
            "X" => false,
            "Y" => true,
            _ => return self.tokens.fault("no axis"),
        };
        let start = self.tokens.integer()?;
        self.tokens.expect("DO")?;
        let count = self.tokens.integer()?;
        self.tokens.expect("STEP")?;
        let step = self.tokens.integer()?;
        self.tokens.expect("LAYER")?;
        let layer = self.metal()?;
        self.tokens.expect(";")?;
        if count < 1 || step < 1 {
            return self.tokens.fault("no tracks");
        }
        Ok(Tracks { layer, are_horizontal, lines: (0..count).map(|index| start + index * step).collect() })
    }

    fn via(&mut self) -> Result<(String, Via), String> {
        let name = self.tokens.name()?;
        let mut parts = Vec::new();
        while self.tokens.takes("+") {
            self.tokens.expect("RECT")?;
            let layer = self.layer()?;
            parts.push(self.rectangle(layer)?);
        }
        parts.sort_unstable();
        let layers: Vec<(u16, u16)> = parts.iter().map(|part| (part.layer, part.purpose)).collect();
        match (Via::try_from(parts), &layers[..]) {
            (Ok(via), [(below, DRAWN), (cut, CUT), (above, DRAWN)]) if below == cut && *above == cut + 1 => Ok((name, via)),
            _ => self.tokens.fault("no via between a metal and the next one"),
        }
    }

    fn pin(&mut self) -> Result<Pin, String> {
        let name = self.tokens.name()?;
        self.tokens.expect("+ NET")?;
        let net = self.tokens.name()?;
        self.tokens.expect("+ DIRECTION INOUT + USE SIGNAL +")?;
        let mut metals = Vec::new();
        while self.tokens.takes("LAYER") {
            let metal = self.metal()?;
            metals.push(self.rectangle((metal, DRAWN))?);
            self.tokens.expect("+")?;
        }
        self.tokens.expect("PLACED")?;
        let place = self.tokens.place()?;
        self.tokens.expect("N")?;
        Ok(Pin { name, net, place, metals: metals.into_iter().map(|metal| metal.moved(place)).collect() })
    }

    fn net(&mut self) -> Result<Net, String> {
        let mut net = Net { name: self.tokens.name()?, pins: vec![], shapes: vec![] };
        while self.tokens.takes("(") {
            self.tokens.expect("PIN")?;
            net.pins.push(self.tokens.name()?);
            self.tokens.expect(")")?;
        }
        self.tokens.expect("+ ROUTED")?;
        self.path(&mut net.shapes)?;
        while self.tokens.takes("NEW") {
            self.path(&mut net.shapes)?;
        }
        self.tokens.expect("+ USE SIGNAL")?;
        Ok(net)
    }

    /// A layer and a place, and from there on wires to further places, and vias.
    fn path(&mut self, shapes: &mut Vec<Rectangle>) -> Result<(), String> {
        let mut layer = self.metal()?;
        let mut place = self.tokens.place()?;
        let start = shapes.len();
        while !matches!(self.tokens.peek(), None | Some("NEW" | "+" | ";")) {
            if self.tokens.peek() == Some("(") {
                let end = self.tokens.place()?;
                shapes.push(self.wire(layer, place, end)?);
                place = end;
            } else {
                let via = self.known_via()?;
                let [below, _, above] = via.map(|part| part.layer);
                layer = match layer {
                    _ if layer == below => above,
                    _ if layer == above => below,
                    _ => return self.tokens.fault("a via of other layers"),
                };
                let via = via.map(|part| part.moved(place));
                if shapes.contains(&via[1]) {
                    return self.tokens.fault("a via that is there already");
                }
                shapes.extend(via);
            }
        }
        if shapes.len() == start {
            return self.tokens.fault("a path of one place");
        }
        Ok(())
    }

    /// It has its layer's width, and reaches half of it beyond its ends.
    fn wire(&self, layer: u16, start: Place, end: Place) -> Result<Rectangle, String> {
        if (start.0 == end.0) == (start.1 == end.1) {
            return self.tokens.fault("a wire without a length, or neither horizontal nor vertical");
        }
        let width = self.technology.metals[layer as usize - 1].width;
        Ok(Rectangle::between(layer, DRAWN, start, end).widened(width / 2))
    }

    fn known_via(&mut self) -> Result<Via, String> {
        let name = self.tokens.word()?;
        self.vias.get(name).copied().map_or_else(|| self.tokens.fault("no via of the section"), Ok)
    }

    fn no_component(&mut self) -> Result<(), String> {
        self.tokens.fault("a component")
    }

    fn design(mut self) -> Result<Design, String> {
        self.tokens.expect("VERSION 5.8 ; DIVIDERCHAR \"/\" ; BUSBITCHARS \"[]\" ; DESIGN")?;
        self.tokens.name()?;
        self.tokens.expect("; UNITS DISTANCE MICRONS 1000 ; DIEAREA")?;
        let die_area = (self.tokens.place()?, self.tokens.place()?);
        self.tokens.expect(";")?;
        let (mut rows, mut tracks) = (vec![], vec![]);
        while self.tokens.takes("ROW") {
            rows.push(self.row()?);
        }
        while self.tokens.takes("TRACKS") {
            tracks.push(self.tracks()?);
        }
        let vias = self.section("VIAS", Self::via)?;
        distinct(vias.iter().map(|(name, _)| name))?;
        self.vias = vias.into_iter().collect();
        self.section("COMPONENTS", Self::no_component)?;
        let pins = self.section("PINS", Self::pin)?;
        let nets = self.section("NETS", Self::net)?;
        self.tokens.expect("END DESIGN")?;
        self.tokens.end()?;
        distinct(rows.iter().map(|(name, _)| name))?;
        distinct(pins.iter().map(|pin| &pin.name))?;
        distinct(nets.iter().map(|net| &net.name))?;
        let sites = rows.into_iter().flat_map(|(_, sites)| sites).collect();
        Ok(Design { die_area, sites, tracks, pins, nets })
    }
}

pub fn read(text: &str, technology: &Technology) -> Result<Design, String> {
    Reader { tokens: Tokens::of(text), technology, vias: BTreeMap::new() }.design()
}
