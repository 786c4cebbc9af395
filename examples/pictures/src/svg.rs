//! What the pictures of lists have in common, as SVG. Coordinates are whole tenths, so the same lists are the same bytes
//! everywhere.

use std::fmt::{self, Write};

/// The picture's width in pixels.
pub const WIDTH: usize = 960;

pub const INK: &str = "#26303a";
pub const FAINT: &str = "#68737d";
pub const GRID: &str = "#e3e6e8";
pub const IDLE: &str = "#e9eaec";
pub const PAPER: &str = "#fdfdfb";
pub const ACCENT: &str = "#c0392b";

/// A coordinate in tenths of a pixel.
#[derive(Clone, Copy)]
pub struct Tenths(pub usize);

impl fmt::Display for Tenths {
    fn fmt(&self, f: &mut fmt::Formatter<'_>) -> fmt::Result {
        match (self.0 / 10, self.0 % 10) {
            (whole, 0) => write!(f, "{whole}"),
            (whole, part) => write!(f, "{whole}.{part}"),
        }
    }
}

/// A number with commas between its thousands.
pub fn count(number: usize) -> String {
    match number {
        0..=999 => number.to_string(),
        _ => format!("{},{:03}", number / 1000, number % 1000),
    }
}

pub fn plural(number: usize, noun: &str) -> String {
    format!(
        "{} {noun}{}",
        count(number),
        if number == 1 { "" } else { "s" }
    )
}

/// Text as XML has it.
pub fn escaped(text: &str) -> String {
    text.replace('&', "&amp;")
        .replace('<', "&lt;")
        .replace('>', "&gt;")
        .replace('"', "&quot;")
}

/// Opens a picture with its title; on it a heading at `left` and a line below that.
pub fn open(
    out: &mut String,
    height: usize,
    title: &str,
    left: usize,
    heading: &str,
    line: &str,
) -> fmt::Result {
    writeln!(
        out,
        "<svg xmlns=\"http://www.w3.org/2000/svg\" viewBox=\"0 0 {WIDTH} {height}\" width=\"{WIDTH}\" height=\"{height}\" font-family=\"Helvetica, Arial, sans-serif\" font-size=\"12\" fill=\"{FAINT}\">"
    )?;
    writeln!(out, "<title>{title}</title>")?;
    writeln!(
        out,
        "<rect width=\"{WIDTH}\" height=\"{height}\" fill=\"{PAPER}\"/>"
    )?;
    writeln!(
        out,
        "<text x=\"{left}\" y=\"34\" font-size=\"20\" font-weight=\"bold\" fill=\"{INK}\">{heading}</text>"
    )?;
    writeln!(
        out,
        "<text x=\"{left}\" y=\"56\" font-size=\"13\">{line}</text>"
    )
}

/// A heading over a part of the picture; `anchor` is start, middle or end.
pub fn heading(out: &mut String, x: usize, y: usize, anchor: &str, text: &str) -> fmt::Result {
    let anchor = match anchor {
        "start" => String::new(),
        _ => format!(" text-anchor=\"{anchor}\""),
    };
    writeln!(
        out,
        "<text x=\"{x}\" y=\"{y}\"{anchor} font-size=\"14\" font-weight=\"bold\" fill=\"{INK}\">{text}</text>"
    )
}

pub fn close(out: &mut String) -> fmt::Result {
    writeln!(out, "</svg>")
}
