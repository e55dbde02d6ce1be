//! A wave as text in the terminal.

use crate::reader::Place;
use crate::wave::{Step, Wave};
use std::io::{self, Write};

/// How lines are drawn, or bars (`bars`).
#[derive(Clone, Copy, Debug, PartialEq, Eq)]
pub enum Style {
    /// Two rows a line, of box characters.
    Boxes,
    /// A row a line, of ASCII characters.
    Ascii,
}

/// The widest that a column gets where there are fewer samples than room.
const WIDEST: usize = 8;

/// The characters of a step: the upper row and the lower one.
fn boxes(step: Step) -> (char, char) {
    match step {
        Step::Low => (' ', '─'),
        Step::High => ('─', ' '),
        Step::Rise => ('┌', '┘'),
        Step::Fall => ('┐', '└'),
        Step::Pulse => ('│', '┴'),
        Step::Dip => ('┬', '│'),
        Step::Unknown => (SHADE, SHADE),
    }
}

/// What unknown samples are shaded with: all that is drawn of a column, or what a line leaves free of it.
const SHADE: char = '░';
const ASCII_SHADE: char = '?';

fn ascii(step: Step) -> char {
    match step {
        Step::Low => '_',
        Step::High => '-',
        Step::Rise => '/',
        Step::Fall => '\\',
        Step::Pulse | Step::Dip => '|',
        Step::Unknown => ASCII_SHADE,
    }
}

/// The line's level as it enters a step.
fn before(step: Step) -> Step {
    match step {
        Step::Low | Step::Rise | Step::Pulse => Step::Low,
        Step::High | Step::Fall | Step::Dip => Step::High,
        Step::Unknown => Step::Unknown,
    }
}

/// The label of the row that shows in which columns samples are unknown.
const UNKNOWN: &str = "unknown";

/// Draws labelled lines in at most `room` characters, the labels not counted; above them places, where the mark is, and
/// which columns have unknown samples.
pub fn draw(
    out: &mut dyn Write,
    wave: &Wave,
    lines: &[(u8, String)],
    mark: Option<Place>,
    style: Style,
    room: usize,
) -> io::Result<()> {
    let stretch = (room / wave.width()).clamp(1, WIDEST);
    let shaded: Vec<bool> =
        wave.shaded().flat_map(|shaded| std::iter::repeat_n(shaded, stretch)).collect();
    let unknown = shaded.contains(&true).then_some(UNKNOWN);
    let labels = lines.iter().map(|(_, label)| label.as_str()).chain(["place"]).chain(unknown);
    let indent = labels.map(|label| label.chars().count()).max().unwrap_or(0) + 1;

    writeln!(out, "{:indent$}{}", "place", ruler(wave, stretch))?;
    if let Some((mark, column)) = mark.and_then(|mark| Some((mark, wave.column(mark)?))) {
        let arrow = if style == Style::Ascii { 'v' } else { '▼' };
        writeln!(out, "{:indent$}{:shift$}{arrow} {mark}", "mark", "", shift = column * stretch)?;
    }
    if let Some(label) = unknown {
        let shade = if style == Style::Ascii { ASCII_SHADE } else { SHADE };
        let row: String = shaded.iter().map(|&shaded| if shaded { shade } else { ' ' }).collect();
        writeln!(out, "{label:indent$}{}", row.trim_end())?;
    }
    for (line, label) in lines {
        let steps = wave.steps(*line).flat_map(|step| {
            // A change stands at the end of its column.
            std::iter::repeat_n(before(step), stretch - 1).chain([step])
        });
        match style {
            Style::Ascii => {
                writeln!(out, "{label:indent$}{}", steps.map(ascii).collect::<String>())?
            }
            Style::Boxes => {
                let fill = |c, shaded| if shaded && c == ' ' { SHADE } else { c };
                let steps = steps.map(boxes).zip(&shaded);
                let (upper, lower): (String, String) =
                    steps.map(|((up, low), &shaded)| (fill(up, shaded), fill(low, shaded))).unzip();
                writeln!(out, "{}", format!("{:indent$}{upper}", "").trim_end())?;
                writeln!(out, "{}", format!("{label:indent$}{lower}").trim_end())?;
            }
        }
    }
    Ok(())
}

/// Places, each written from its column on, as many as there is room for.
fn ruler(wave: &Wave, stretch: usize) -> String {
    let length = |column: usize| wave.place(column).to_string().len();
    let widest = length(0).max(length(wave.width()));
    // Every tenth character or so, and further apart where places are longer.
    let every = (widest + 2).max(10).div_ceil(stretch);
    let mut text = String::new();
    for column in (0..wave.width()).step_by(every) {
        text = format!("{text:at$}{}", wave.place(column), at = column * stretch);
    }
    text
}

#[cfg(test)]
mod tests {
    use super::*;
    use crate::file::captured;
    use crate::reader::Reader;
    use crate::stretches::listed;

    fn drawn(samples: &[u8], style: Style, room: usize, mark: Option<usize>) -> String {
        drawn_for(&Reader::Service(&captured(samples, mark)), style, room)
    }

    fn drawn_for(reader: &Reader, style: Style, room: usize) -> String {
        let wave = Wave::new(reader, reader.first(), reader.end(), room).unwrap().unwrap();
        drawn_wave(&wave, reader.mark(), style, room)
    }

    fn drawn_wave(wave: &Wave, mark: Option<Place>, style: Style, room: usize) -> String {
        let lines = [(0, "0".to_string()), (1, "1 turner".to_string())];
        let mut out = Vec::new();
        draw(&mut out, wave, &lines, mark, style, room).unwrap();
        String::from_utf8(out).unwrap()
    }

    #[test]
    fn ascii_rows() {
        let text = drawn(&[0, 0, 1, 3, 2, 0], Style::Ascii, 6, Some(3));
        let expected = [
            "place    0", //
            "mark        v 3",
            "0        _/-\\__",
            "1 turner __/-\\_",
        ];
        assert_eq!(text.lines().collect::<Vec<_>>(), expected);
    }

    #[test]
    fn boxes_in_two_rows() {
        let text = drawn(&[0, 0, 1, 3, 2, 0], Style::Boxes, 12, None);
        let expected = [
            "place    0         5",
            "            ┌───┐",
            "0        ───┘   └────",
            "              ┌───┐",
            "1 turner ─────┘   └──",
        ];
        assert_eq!(text.lines().collect::<Vec<_>>(), expected);
    }

    #[test]
    fn pulses_and_dips_within_a_column() {
        let samples = [0, 1, 0, 0, 0, 0, 1, 1, 1, 0, 1, 1, 1, 1, 1, 1];
        let text = drawn(&samples, Style::Boxes, 4, None);
        assert_eq!(text.lines().nth(1), Some("         │┌┬─"));
        assert_eq!(text.lines().nth(2), Some("0        ┴┘│"));
        let text = drawn(&samples, Style::Ascii, 4, None);
        assert_eq!(text.lines().nth(1), Some("0        |/|-"));
    }

    #[test]
    fn a_mill_sees_its_lines_and_its_places() {
        let capture = captured(&[0, 0, 1, 3, 2, 0], Some(3));
        let text = drawn_for(&Reader::Mill(capture.mill(0b01)), Style::Ascii, 6);
        let expected = [
            "place    -3", //
            "mark        v 0",
            "0        _/-\\__",
            "1 turner ______",
        ];
        assert_eq!(text.lines().collect::<Vec<_>>(), expected);
    }

    fn drawn_across(
        samples: &[u8],
        unknown: &[(usize, usize)],
        style: Style,
        room: usize,
    ) -> String {
        let capture = captured(samples, Some(0));
        let reader = Reader::Service(&capture);
        let mut wave = Wave::new(&reader, 0, reader.end(), room).unwrap().unwrap();
        wave.shade(&capture, &listed(unknown));
        drawn_wave(&wave, reader.mark(), style, room)
    }

    #[test]
    fn unknown_columns_are_shaded() {
        let samples = [3, 3, 0, 0, 1, 0, 0];
        let unknown = [(2, 2), (6, 1)];
        let text = drawn_across(&samples, &unknown, Style::Boxes, 14);
        let expected = [
            "place    0         5",
            "mark     ▼ 0",
            "unknown      ░░░░    ░░",
            "         ────░░░░─┐  ░░",
            "0            ░░░░ └──░░",
            "         ────░░░░    ░░",
            "1 turner     ░░░░────░░",
        ];
        assert_eq!(text.lines().collect::<Vec<_>>(), expected);
        let text = drawn_across(&samples, &unknown, Style::Ascii, 7);
        let expected = [
            "place    0",
            "mark     v 0",
            "unknown    ??  ?",
            "0        --??\\_?",
            "1 turner --??__?",
        ];
        assert_eq!(text.lines().collect::<Vec<_>>(), expected);
    }

    #[test]
    fn a_column_with_some_unknown_samples_keeps_its_lines() {
        let mut samples = [0; 40];
        samples[20..].fill(3);
        // Line 0 has a pulse in the first column, and line 1 none.
        samples[3] = 1;
        let unknown = [(7, 1), (25, 4)];
        let text = drawn_across(&samples, &unknown, Style::Boxes, 4);
        let expected = [
            "place    0",
            "mark     ▼ 0",
            "unknown  ░ ░",
            "         │┌──",
            "0        ┴┘░",
            "         ░┌──",
            "1 turner ─┘░",
        ];
        assert_eq!(text.lines().collect::<Vec<_>>(), expected);
        let text = drawn_across(&samples, &unknown, Style::Ascii, 4);
        let rows: Vec<_> = text.lines().skip(2).collect();
        assert_eq!(rows, ["unknown  ? ?", "0        |/--", "1 turner _/--"]);
    }

    #[test]
    fn without_unknown_samples_in_it_a_drawing_is_as_before() {
        for style in [Style::Boxes, Style::Ascii] {
            let plain = drawn(&[0, 1, 3, 1], style, 8, Some(0));
            assert_eq!(drawn_across(&[0, 1, 3, 1], &[], style, 8), plain);
        }
    }

    #[test]
    fn places_stand_at_their_columns() {
        let text = drawn(&[0; 1000], Style::Ascii, 40, None);
        assert_eq!(text.lines().next(), Some("place    0         250       500       750"));
    }
}
