//! A wave as an SVG picture, and what other pictures have in common with it.

use crate::reader::Place;
use crate::wave::{Step, Wave};
use std::fmt::Write as _;
use std::io::{self, Write};

/// Sizes in the picture's units.
pub const MARGIN: usize = 10;
pub const LETTER: usize = 8;
pub const RULER: usize = 40;
const ROW: usize = 32;
const HEIGHT: usize = 20;

/// Draws labelled lines over `room` units, the labels not counted; above them places, and where the mark is.
pub fn draw(
    out: &mut dyn Write,
    wave: &Wave,
    lines: &[(u8, String)],
    mark: Option<Place>,
    room: usize,
) -> io::Result<()> {
    // Whole units where there are as many columns as that; wider where samples are fewer.
    let column = room as f64 / wave.width() as f64;
    let labels = LETTER * lines.iter().map(|(_, label)| label.chars().count()).max().unwrap_or(0);
    let left = 2 * MARGIN + labels;
    let (width, height) = (left + room + MARGIN, RULER + ROW * lines.len() + MARGIN);
    let x = |at: usize| left as f64 + at as f64 * column;

    begin(out, width, height)?;
    for number in 0..=4 {
        let at = wave.width() * number / 5;
        tick(out, x(at), height - MARGIN, wave.place(at))?;
    }
    shade(out, wave, x, height - MARGIN)?;
    for (row, (line, label)) in lines.iter().enumerate() {
        let high = RULER + ROW * row + (ROW - HEIGHT) / 2;
        let low = high + HEIGHT;
        let (label, d) = (escaped(label), path(wave, *line, x, high, low));
        writeln!(out, r##"<text x="{MARGIN}" y="{}" fill="#000000">{label}</text>"##, low - 5)?;
        writeln!(out, r##"<path d="{d}" fill="none" stroke="#1f5fa8" stroke-width="1.2"/>"##)?;
    }
    if let Some((place, at)) = mark.and_then(|mark| Some((mark, wave.column(mark)?))) {
        self::mark(out, x(at), height - MARGIN, place)?;
    }
    end(out)
}

/// The beginning of a picture, and its background.
pub fn begin(out: &mut dyn Write, width: usize, height: usize) -> io::Result<()> {
    writeln!(
        out,
        r#"<svg xmlns="http://www.w3.org/2000/svg" width="{width}" height="{height}" viewBox="0 0 {width} {height}" font-family="monospace" font-size="13">"#
    )?;
    writeln!(out, r##"<rect width="{width}" height="{height}" fill="#ffffff"/>"##)
}

/// A place above, and a line down from it.
pub fn tick(out: &mut dyn Write, x: f64, bottom: usize, place: Place) -> io::Result<()> {
    writeln!(out, r##"<path d="M{x:.2} {RULER}V{bottom}" stroke="#dddddd"/>"##)?;
    writeln!(out, r##"<text x="{x:.2}" y="16" fill="#555555">{place}</text>"##)
}

/// The mark, and a line down from it.
pub fn mark(out: &mut dyn Write, x: f64, bottom: usize, place: Place) -> io::Result<()> {
    writeln!(out, r##"<path d="M{x:.2} 22V{bottom}" stroke="#c02020" stroke-dasharray="4 3"/>"##)?;
    writeln!(out, r##"<text x="{:.2}" y="34" fill="#c02020">mark {place}</text>"##, x + 4.0)
}

pub fn end(out: &mut dyn Write) -> io::Result<()> {
    writeln!(out, "</svg>")
}

/// Shades the columns that have unknown samples. Who points at them is told their places.
fn shade(
    out: &mut dyn Write,
    wave: &Wave,
    x: impl Fn(usize) -> f64,
    bottom: usize,
) -> io::Result<()> {
    let shaded: Vec<bool> = wave.shaded().collect();
    let mut at = 0;
    for run in shaded.chunk_by(|one, next| one == next) {
        let end = at + run.len();
        if run[0] {
            let (left, width, height) = (x(at), x(end) - x(at), bottom - RULER);
            let (first, last) = (wave.place(at), wave.place(end) - 1);
            let title = format!("<title>unknown samples in {first} to {last}</title>");
            writeln!(
                out,
                r##"<rect x="{left:.2}" y="{RULER}" width="{width:.2}" height="{height}" fill="#f8d9b4" stroke="#d9822b">{title}</rect>"##
            )?;
        }
        at = end;
    }
    Ok(())
}

/// The line's path. A level runs on until it changes, at the end of its column; where it is unknown there is none.
fn path(wave: &Wave, line: u8, x: impl Fn(usize) -> f64, high: usize, low: usize) -> String {
    let mut d = String::new();
    // Whether the path has come up to where a column begins.
    let mut drawn = false;
    for (at, step) in wave.steps(line).chain([Step::Unknown]).enumerate() {
        let entered = match step {
            Step::Low | Step::Rise | Step::Pulse => Some(low),
            Step::High | Step::Fall | Step::Dip => Some(high),
            Step::Unknown => None,
        };
        // Writing to a string does not fail.
        let _ = match entered {
            Some(level) if !drawn => write!(d, "M{:.2} {level}", x(at)),
            None if drawn => write!(d, "H{:.2}", x(at)),
            _ => Ok(()),
        };
        drawn = entered.is_some();
        let x = x(at + 1);
        let _ = match step {
            Step::Low | Step::High | Step::Unknown => continue,
            Step::Rise => write!(d, "H{x:.2}V{high}"),
            Step::Fall => write!(d, "H{x:.2}V{low}"),
            Step::Pulse => write!(d, "H{x:.2}V{high}V{low}"),
            Step::Dip => write!(d, "H{x:.2}V{low}V{high}"),
        };
    }
    d
}

/// Text that is read as itself.
fn escaped(text: &str) -> String {
    text.replace('&', "&amp;").replace('<', "&lt;").replace('>', "&gt;")
}

#[cfg(test)]
mod tests {
    use super::*;
    use crate::file::captured;
    use crate::reader::Reader;
    use crate::stretches::listed;

    fn drawn(samples: &[u8], room: usize, mark: Option<usize>, label: &str) -> String {
        drawn_across(&[], samples, room, mark, label)
    }

    fn drawn_across(
        unknown: &[(usize, usize)],
        samples: &[u8],
        room: usize,
        mark: Option<usize>,
        label: &str,
    ) -> String {
        let capture = captured(samples, mark);
        let reader = Reader::Service(&capture);
        let mut wave = Wave::new(&reader, 0, reader.end(), room).unwrap().unwrap();
        wave.shade(&capture, &listed(unknown));
        let mut out = Vec::new();
        draw(&mut out, &wave, &[(0, label.to_string())], reader.mark(), room).unwrap();
        String::from_utf8(out).unwrap()
    }

    #[test]
    fn a_level_runs_on_until_it_changes() {
        let svg = drawn(&[0, 0, 1, 1, 0, 1], 60, None, "0");
        // a column is 10 units wide, and the first begins at 28
        assert!(svg.contains(r#"d="M28.00 66H48.00V46H68.00V66H78.00V46H88.00""#), "{svg}");
        assert!(!svg.contains("mark"));
    }

    #[test]
    fn pulses_and_dips_are_drawn_whole() {
        let svg = drawn(&[0, 1, 0, 0, 0, 0, 1, 1, 1, 0, 1, 1, 1, 1, 1, 1], 4, None, "0");
        assert!(svg.contains(r#"d="M28.00 66H29.00V46V66H30.00V46H31.00V66V46H32.00""#), "{svg}");
    }

    #[test]
    fn unknown_columns_are_shaded_and_have_no_line() {
        // A column is 10 units wide, and the first begins at 28.
        let svg = drawn_across(&[(1, 2), (5, 1)], &[1, 0, 0, 1, 0, 0], 60, None, "0");
        assert!(svg.contains(r#"d="M28.00 46H38.00M58.00 46H68.00V66H78.00""#), "{svg}");
        for (left, width, places) in [("38.00", "20.00", "1 to 2"), ("78.00", "10.00", "5 to 5")] {
            let rect = format!(r#"<rect x="{left}" y="40" width="{width}" height="32""#);
            assert!(svg.contains(&rect), "{svg}");
            assert!(svg.contains(&format!("<title>unknown samples in {places}</title>")), "{svg}");
        }
        assert_eq!(svg.matches("<title>").count(), 2);
        // One unknown sample among many shades its column; the lines run on.
        let svg = drawn_across(&[(9_999, 1)], &[0; 100_000], 100, None, "0");
        assert!(svg.contains(r#"<rect x="37.00" y="40" width="1.00""#), "{svg}");
        assert!(svg.contains("unknown samples in 9000 to 9999<") && svg.contains("H128.00"));
        // Nothing is known.
        let svg = drawn_across(&[(0, 2)], &[0, 1], 20, None, "0");
        assert!(svg.contains(r#"<path d="" "#) && svg.contains(r#"width="20.00""#), "{svg}");
    }

    #[test]
    fn the_mark_and_labels() {
        let svg = drawn(&[0, 1], 20, Some(1), "a<b&c");
        assert!(svg.contains("mark 1</text>"));
        assert!(svg.contains("a&lt;b&amp;c</text>"));
        assert!(svg.starts_with("<svg ") && svg.ends_with("</svg>\n"));
    }
}
