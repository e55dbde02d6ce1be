//! The changes in the parts of a stretch as bars: in the terminal and as an SVG picture.

use crate::parts::Parts;
use crate::reader::Place;
use crate::svg::{self, LETTER, MARGIN, RULER};
use crate::text::Style;
use std::io::{self, Write};

/// The part of a character that a bar ends with, in eighths.
const EIGHTHS: [&str; 8] = ["", "▏", "▎", "▍", "▌", "▋", "▊", "▉"];

/// The height of the busiest part's bar in the picture.
const HEIGHT: usize = 160;

/// How long a bar is where the longest is `room`; one of any change is seen.
fn length(count: u32, most: u32, room: usize) -> usize {
    let length = u128::from(count) * room as u128 / u128::from(most.max(1));
    (length as usize).max(usize::from(count > 0))
}

/// A bar of at most `room` characters.
fn bar(count: u32, most: u32, style: Style, room: usize) -> String {
    match style {
        Style::Ascii => "#".repeat(length(count, most, room)),
        Style::Boxes => {
            let eighths = length(count, most, 8 * room);
            "█".repeat(eighths / 8) + EIGHTHS[eighths % 8]
        }
    }
}

/// Prints for each part its first place, its changes, and a bar, of `room` characters for the busiest.
pub fn print(out: &mut dyn Write, parts: &Parts, style: Style, room: usize) -> io::Result<()> {
    let most = parts.most();
    let last = parts.counts().len() - 1;
    let (places, counts) = (digits(parts.start(last)), digits(most));
    for (part, &count) in parts.counts().iter().enumerate() {
        let (place, bar) = (parts.start(part), bar(count, most, style, room));
        writeln!(out, "{}", format!("{place:>places$} {count:>counts$} {bar}").trim_end())?;
    }
    Ok(())
}

fn digits(number: impl ToString) -> usize {
    number.to_string().len()
}

/// Draws a bar for each part over `room` units, the labels not counted; above them places, and where the mark is. A bar
/// has its number above it where that fits, and says its places and its number to whoever points at it.
pub fn draw(
    out: &mut dyn Write,
    parts: &Parts,
    mark: Option<Place>,
    room: usize,
) -> io::Result<()> {
    let (count, most) = (parts.counts().len(), parts.most());
    let column = room as f64 / count as f64;
    let left = 2 * MARGIN + LETTER * digits(most);
    // Between the places and the highest bar there is a row for its number.
    let high = RULER + 2 * MARGIN;
    let low = high + HEIGHT;
    let (width, height) = (left + room + MARGIN, low + MARGIN);
    let x = |part: usize| left as f64 + part as f64 * column;

    svg::begin(out, width, height)?;
    for tick in 0..=4 {
        let part = count * tick / 5;
        svg::tick(out, x(part), low, parts.start(part))?;
    }
    for (number, y) in [(most, high), (0, low)] {
        writeln!(out, r##"<text x="{MARGIN}" y="{}" fill="#555555">{number}</text>"##, y + 4)?;
        let end = left + room;
        writeln!(out, r##"<path d="M{left} {y}H{end}" fill="none" stroke="#dddddd"/>"##)?;
    }
    for (part, &count) in parts.counts().iter().enumerate().filter(|(_, count)| **count > 0) {
        let tall = length(count, most, HEIGHT);
        let (x, y, last) = (x(part), low - tall, parts.start(part + 1) - 1);
        // A gap between bars that are wide enough for one.
        let wide = if column < 4.0 { column } else { column - 1.0 };
        writeln!(
            out,
            r##"<rect x="{x:.2}" y="{y}" width="{wide:.2}" height="{tall}" fill="#1f5fa8"><title>{} to {last}: {count}</title></rect>"##,
            parts.start(part)
        )?;
        if (LETTER * digits(count)) as f64 <= column {
            writeln!(out, r##"<text x="{x:.2}" y="{}" fill="#000000">{count}</text>"##, y - 4)?;
        }
    }
    if let Some((mark, along)) = mark.and_then(|mark| Some((mark, parts.along(mark)?))) {
        svg::mark(out, left as f64 + along * room as f64, low, mark)?;
    }
    svg::end(out)
}

#[cfg(test)]
mod tests {
    use super::*;
    use crate::file::captured;

    /// The changes are at 2, 4, 5 and 7.
    const SAMPLES: [u8; 8] = [0, 0, 1, 1, 0, 2, 2, 3];

    fn parts(count: usize) -> Parts {
        Parts::new(&captured(&SAMPLES, None), 0, 8, count)
    }

    fn printed(count: usize, style: Style, room: usize) -> String {
        let mut out = Vec::new();
        print(&mut out, &parts(count), style, room).unwrap();
        String::from_utf8(out).unwrap()
    }

    fn drawn(count: usize, mark: Option<Place>) -> String {
        let mut out = Vec::new();
        draw(&mut out, &parts(count), mark, 80).unwrap();
        String::from_utf8(out).unwrap()
    }

    #[test]
    fn bars_of_characters() {
        assert_eq!(printed(4, Style::Ascii, 10), "0 0\n2 1 #####\n4 2 ##########\n6 1 #####\n");
        assert_eq!(printed(4, Style::Boxes, 3), "0 0\n2 1 █▌\n4 2 ███\n6 1 █▌\n");
        assert_eq!(printed(1, Style::Boxes, 3), "0 4 ███\n");
    }

    #[test]
    fn any_change_is_seen() {
        assert_eq!(length(1, u32::MAX, 50), 1);
        assert_eq!(length(0, u32::MAX, 50), 0);
        assert_eq!(length(0, 0, 50), 0);
        assert_eq!(length(u32::MAX, u32::MAX, 65_535), 65_535);
        assert_eq!(bar(1, 1_000, Style::Boxes, 50), "▏");
        assert_eq!(bar(1, 1_000, Style::Ascii, 50), "#");
    }

    #[test]
    fn numbers_stand_in_columns() {
        let mut samples = [0; 2000];
        samples.iter_mut().step_by(2).take(60).for_each(|sample| *sample = 1);
        let parts = Parts::new(&captured(&samples, None), 990, 2000, 2);
        assert_eq!(parts.counts(), [0, 0]);
        let parts = Parts::new(&captured(&samples, None), 0, 2000, 2);
        let mut out = Vec::new();
        print(&mut out, &parts, Style::Ascii, 4).unwrap();
        assert_eq!(String::from_utf8(out).unwrap(), "   0 119 ####\n1000   0\n");
    }

    #[test]
    fn bars_of_a_picture() {
        let svg = drawn(4, Some(5));
        // A bar is 20 units wide, and the first begins at 28; the busiest is 160 high.
        assert!(svg.contains(r#"<rect x="48.00" y="140" width="19.00" height="80""#), "{svg}");
        assert!(svg.contains(r#"<rect x="68.00" y="60" width="19.00" height="160""#), "{svg}");
        assert!(svg.contains("<title>4 to 5: 2</title>"), "{svg}");
        assert!(svg.contains(r##"<text x="68.00" y="56" fill="#000000">2</text>"##), "{svg}");
        // A part without a change has no bar. The background is a rectangle too.
        assert_eq!(svg.matches("<rect ").count(), 1 + 3);
        assert!(svg.contains("mark 5</text>") && svg.contains("M78.00 22V220"), "{svg}");
        assert!(svg.starts_with("<svg ") && svg.ends_with("</svg>\n"));
        assert!(!drawn(4, None).contains("mark"));
        assert!(!drawn(4, Some(8)).contains("mark"));
    }
}
