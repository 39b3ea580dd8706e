//! The few shapes of the picture.

use super::Point;
use std::fmt::Display;

/// About how wide a character of the words is.
pub const CHARACTER: usize = 7;

pub struct Picture {
    shapes: String,
}

const STYLE: &str = "text{font-family:sans-serif;font-size:8px;text-anchor:middle;dominant-baseline:central}\
.words{font-size:12px;text-anchor:start;fill:#222}.net{fill:#fff;stroke-width:3px;paint-order:stroke;font-weight:bold}\
.pin{fill:#fff;font-weight:bold}.metal{fill:none;stroke-width:5px;stroke-linecap:round}.frame{stroke:#999}";

impl Picture {
    pub fn new() -> Self {
        Picture { shapes: String::new() }
    }

    fn add(&mut self, shape: impl Display) {
        self.shapes += &format!("{shape}\n");
    }

    pub fn words(&mut self, (x, y): Point, words: &str) {
        self.add(format_args!("<text class=\"words\" x=\"{x}\" y=\"{y}\">{}</text>", text(words)));
    }

    /// The grid's border.
    pub fn frame(&mut self, (x, y): Point, width: usize, height: usize) {
        self.add(format_args!("<rect class=\"frame\" x=\"{x}\" y=\"{y}\" width=\"{width}\" height=\"{height}\" fill=\"#fafafa\"/>"));
    }

    pub fn metal(&mut self, from: Point, to: Point, net: u8) {
        let colour = colour(net);
        self.add(format_args!("<path class=\"metal\" stroke=\"{colour}\" d=\"M{} {}L{} {}\"/>", from.0, from.1, to.0, to.1));
    }

    pub fn label(&mut self, (x, y): Point, net: u8, label: &str) {
        let (colour, label) = (colour(net), text(label));
        self.add(format_args!("<text class=\"net\" stroke=\"{colour}\" x=\"{x}\" y=\"{y}\">{label}</text>"));
    }

    pub fn pin(&mut self, (x, y): Point, net: u8, label: &str) {
        self.add(format_args!("<rect x=\"{}\" y=\"{}\" width=\"13\" height=\"11\" rx=\"2\" fill=\"{}\"/>", x - 6, y - 5, colour(net)));
        self.add(format_args!("<text class=\"pin\" x=\"{x}\" y=\"{y}\">{}</text>", text(label)));
    }

    /// A dot: to the next layer.
    pub fn via_up(&mut self, (x, y): Point) {
        self.add(format_args!("<circle cx=\"{x}\" cy=\"{y}\" r=\"2\" fill=\"#fff\"/>"));
    }

    /// A ring: to the layer before.
    pub fn via_down(&mut self, (x, y): Point) {
        self.add(format_args!("<circle cx=\"{x}\" cy=\"{y}\" r=\"4\" fill=\"none\" stroke=\"#222\"/>"));
    }

    pub fn finished(self, width: usize, height: usize) -> String {
        format!(
            "<svg xmlns=\"http://www.w3.org/2000/svg\" width=\"{width}\" height=\"{height}\" viewBox=\"0 0 {width} {height}\">\n\
             <style>{STYLE}</style>\n<rect width=\"{width}\" height=\"{height}\" fill=\"#fff\"/>\n{}</svg>\n",
            self.shapes
        )
    }
}

/// Words as the text of an element; a net's name may have angle brackets.
fn text(words: &str) -> String {
    words.replace('&', "&amp;").replace('<', "&lt;").replace('>', "&gt;")
}

/// A colour for each net: hues a golden angle apart, so that neighbours in number differ, at three depths.
fn colour(net: u8) -> String {
    let hue = (net as f64 * 137.508) % 360.0;
    let light: f64 = [0.42, 0.34, 0.5][net as usize % 3];
    let channel = |shift: f64| {
        let k = (shift + hue / 30.0) % 12.0;
        let value = light - 0.7 * light.min(1.0 - light) * (k - 3.0).min(9.0 - k).clamp(-1.0, 1.0);
        (value * 255.0).round() as u8
    };
    format!("#{:02x}{:02x}{:02x}", channel(0.0), channel(8.0), channel(4.0))
}
