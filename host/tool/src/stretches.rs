//! The list of a capture's unknown stretches, as text.
//!
//! A stretch is a line: its first place and its count of samples in base ten, with a space between them. The lines rise, and
//! no stretch touches the next. Empty lines and lines that begin with # are passed over. Places count from the first sample.

use crate::args::Args;
use crate::failure::{bad, Failure};
use crate::number;
use crate::source::Source;
use capture::{Capture, Node, Stretch};
use std::io::{self, BufRead, BufReader, Read, Write};
use std::{iter, str};

/// What is added to a file's name for its list.
pub const ENDING: &str = ".stretches";

const FORM: &str = "a stretch is two numbers, its first place and its count, as in 4500 500";

/// The longest line that is read. What has no lines, such as a capture, is not read to its end.
const LONGEST: u64 = 1000;

pub fn write(to: &mut dyn Write, stretches: &[Stretch]) -> io::Result<()> {
    writeln!(to, "# unknown stretches: first place, count of samples")?;
    for Stretch { first, count } in stretches {
        writeln!(to, "{first} {count}")?;
    }
    Ok(())
}

/// A list that was read, of whatever capture it is.
#[derive(Debug)]
pub struct List {
    /// Its file.
    name: String,
    stretches: Vec<Stretch>,
    /// The line of each.
    lines: Vec<usize>,
}

impl List {
    /// The list that --stretches names. Mills get none.
    pub fn asked(args: &Args) -> Result<Option<List>, Failure> {
        let Some(path) = args.path("--stretches") else { return Ok(None) };
        if args.flag("--grant") {
            return Err(bad("--grant: unknown stretches are not given to mills"));
        }
        if path == "-" && args.file() == Some(path) {
            return Err(bad("--stretches -: standard input is taken; name a file"));
        }
        List::read(Source::open(path)?).map(Some)
    }

    fn read(source: Source) -> Result<List, Failure> {
        let mut list = List { name: source.name.clone(), stretches: vec![], lines: vec![] };
        let mut source = BufReader::new(source);
        for line in 1.. {
            let mut bytes = Vec::new();
            let read = source.by_ref().take(LONGEST).read_until(b'\n', &mut bytes);
            if read.map_err(|error| list.bad(&error.to_string()))? == 0 {
                break;
            }
            match read_line(&bytes) {
                Ok(None) => {}
                Ok(Some(stretch)) => {
                    list.stretches.push(stretch);
                    list.lines.push(line);
                }
                Err(what) => return Err(list.bad(&format!("line {line}: {what}"))),
            }
        }
        Ok(list)
    }

    /// Its stretches, if the capture can have them. The first that it cannot is named by its line.
    pub fn of(self, capture: &Capture) -> Result<Vec<Stretch>, Failure> {
        // The library says which lists it takes; behind the end there is nothing to search.
        let refused = |count: usize| {
            let searched = capture.next_certain(&self.stretches[..count], 0, usize::MAX);
            searched.err()
        };
        let Some(refusal) = refused(self.stretches.len()) else { return Ok(self.stretches) };
        // A list goes on being refused, whatever stands behind what it is refused for.
        let counts: Vec<usize> = (1..=self.stretches.len()).collect();
        let first = counts.partition_point(|&count| refused(count).is_none());
        Err(self.bad(&format!("line {}: {refusal}", self.lines[first])))
    }

    fn bad(&self, what: &str) -> Failure {
        bad(format!("{}: {what}", self.name))
    }
}

/// The stretch of a line, if it has one. What is wrong is said without the line's text, which may be anything.
fn read_line(line: &[u8]) -> Result<Option<Stretch>, String> {
    if line.len() as u64 == LONGEST && !line.ends_with(b"\n") {
        return Err(format!("it has {LONGEST} bytes or more"));
    }
    if line.starts_with(b"#") {
        return Ok(None);
    }
    let words: Vec<&str> = str::from_utf8(line).map_err(|_| FORM)?.split_whitespace().collect();
    match words[..] {
        [] => Ok(None),
        [first, count] => {
            Ok(Some(Stretch { first: number::whole(first)?, count: number::whole(count)? }))
        }
        _ => Err(FORM.into()),
    }
}

/// The known places from `a` up to `b`, run by run: where each begins, and the place behind it.
pub fn known_runs(
    stretches: &[Stretch],
    a: usize,
    b: usize,
) -> impl Iterator<Item = (usize, usize)> + '_ {
    let end = |stretch: &Stretch| stretch.first + stretch.count;
    let from = stretches.partition_point(move |stretch| end(stretch) <= a);
    let to = stretches.partition_point(|stretch| stretch.first < b);
    let inside = stretches.get(from..to).unwrap_or_default();
    let begins = iter::once(a).chain(inside.iter().map(end));
    let ends = inside.iter().map(|stretch| stretch.first).chain([b]);
    begins.zip(ends).filter(|(begin, end)| begin < end)
}

/// The summary of the known samples from `a` up to `b`; none where there are none. Where a line is another behind a stretch
/// than before it, it has changed.
pub fn known_node(capture: &Capture, stretches: &[Stretch], a: usize, b: usize) -> Option<Node> {
    let runs = known_runs(stretches, a, b);
    let nodes = runs.filter_map(|(begin, end)| capture.summary(begin, end));
    nodes.reduce(|left, right| Node {
        toggles: left.toggles | right.toggles | left.last ^ right.first,
        last: right.last,
        ..left
    })
}

/// How many places from `a` up to `b` are unknown.
pub fn unknown_in(stretches: &[Stretch], a: usize, b: usize) -> usize {
    let known: usize = known_runs(stretches, a, b).map(|(begin, end)| end - begin).sum();
    b.saturating_sub(a) - known
}

/// The stretches of two lists as one list: what is unknown in either.
pub fn joined(one: &[Stretch], other: &[Stretch]) -> Vec<Stretch> {
    let mut all = [one, other].concat();
    all.sort_by_key(|stretch| stretch.first);
    let mut joined: Vec<Stretch> = Vec::new();
    for next in all {
        match joined.last_mut() {
            Some(last) if next.first <= last.first + last.count => {
                last.count = last.count.max(next.first + next.count - last.first);
            }
            _ => joined.push(next),
        }
    }
    joined
}

/// For tests: stretches by first places and counts.
#[cfg(test)]
pub fn listed(pairs: &[(usize, usize)]) -> Vec<Stretch> {
    pairs.iter().map(|&(first, count)| Stretch { first, count }).collect()
}

#[cfg(test)]
mod tests {
    use super::*;
    use crate::file::captured;
    use crate::plain::unknown::{is_unknown, stretches};
    use crate::plain::Rng;

    fn written(stretches: &[Stretch]) -> String {
        let mut text = Vec::new();
        write(&mut text, stretches).unwrap();
        String::from_utf8(text).unwrap()
    }

    fn read(text: &[u8]) -> Result<List, Failure> {
        List::read(Source::of(text))
    }

    #[test]
    fn a_line_a_stretch() {
        let comment = "# unknown stretches: first place, count of samples\n";
        assert_eq!(written(&[]), comment);
        let stretches = listed(&[(0, 500), (67_108_500, 1)]);
        assert_eq!(written(&stretches), format!("{comment}0 500\n67108500 1\n"));
    }

    #[test]
    fn what_is_written_reads_back() {
        let most = usize::MAX;
        for pairs in [&[][..], &[(0, 500)], &[(0, 1), (2, 1), (67_108_500, 364)], &[(most, most)]] {
            let read = read(written(&listed(pairs)).as_bytes()).unwrap();
            assert_eq!(read.stretches, listed(pairs));
            assert!(read.lines.iter().copied().eq(2..2 + pairs.len()));
        }
    }

    #[test]
    fn what_people_write_is_read() {
        for text in ["", "\n", "#", "# \u{e9}\n\n", "  \t\r\n#1 2"] {
            assert_eq!(read(text.as_bytes()).unwrap().stretches, []);
        }
        assert_eq!(read(b"# \xff\n").unwrap().stretches, []);
        let text = b"3 4\n\n# more\n\t09   1 \r\n12 3";
        let read = read(text).unwrap();
        assert_eq!(
            (read.stretches, read.lines),
            (listed(&[(3, 4), (9, 1), (12, 3)]), vec![1, 4, 5])
        );
    }

    #[test]
    fn what_is_wrong_is_said() {
        let long = [&b"1 2\n#"[..], &[b' '; 999]].concat();
        let cases: [(&[u8], &str); 11] = [
            (b"12", "line 1: a stretch is"),
            (b"1 2\n3 4 5\n", "line 2: a stretch is"),
            (b"# list\n250 250 0.0250%\n", "line 2: a stretch is"),
            (b"\xff\xfe 3", "line 1: a stretch is"),
            (b"3,4\n", "line 1: a stretch is"),
            (b"1 2\n\n-3 4", "line 3: not a whole number"),
            (b"1 0x2", "line 1: not a whole number"),
            (b" #\n", "line 1: a stretch is"),
            (b"# #\nfirst count\n", "line 2: not a whole number"),
            (b"0 18446744073709551616", "line 1: above 18446744073709551615"),
            (&long, "line 2: it has 1000 bytes or more"),
        ];
        for (text, what) in cases {
            let what = what.replace("a stretch is", FORM);
            assert_eq!(read(text).unwrap_err(), bad(format!("test: {what}")));
        }
        // One byte less is a comment.
        assert!(read(&long[..long.len() - 1]).is_ok());
        assert!(read(&[&long[..long.len() - 1], b"\n5 1"].concat()).is_ok());
    }

    #[test]
    fn a_list_of_another_capture() {
        let capture = captured(&[0; 100], None);
        for text in ["", "0 100", "99 1", "0 1\n2 1\n# end\n50 50"] {
            let list = read(text.as_bytes()).unwrap();
            let stretches = list.stretches.clone();
            assert_eq!(list.of(&capture), Ok(stretches));
        }
        for (text, line) in [
            ("0 101", 1),
            ("0 0", 1),
            ("0 1\n1 1", 2),
            ("0 1\n\n\n2 1\n# here\n3 18446744073709551615\n0 0\n9 1", 6),
            ("9 1\n5 1\n20 1", 2),
            ("1 1\n3 1\n5 1\n7 1\n9 1\n11 1\n100 1", 7),
        ] {
            let said = read(text.as_bytes()).unwrap().of(&capture).unwrap_err();
            let refused = capture::Refusal::Stretches;
            assert_eq!(said, bad(format!("test: line {line}: {refused}")));
        }
    }

    #[test]
    fn known_places() {
        let stretches = listed(&[(0, 2), (5, 3), (9, 1), (20, 10)]);
        let known = |&place: &usize| {
            !stretches.iter().any(|s| (s.first..s.first + s.count).contains(&place))
        };
        for a in 0..32 {
            for b in 0..32 {
                let runs: Vec<_> = known_runs(&stretches, a, b).collect();
                let places = runs.iter().flat_map(|&(begin, end)| begin..end);
                assert!(places.eq((a..b).filter(known)), "{a} {b}");
                assert!(runs.windows(2).all(|pair| pair[0].1 < pair[1].0), "{a} {b}");
                let unknown = (a..b).filter(|place| !known(place)).count();
                assert_eq!(unknown_in(&stretches, a, b), unknown);
            }
        }
        assert!(known_runs(&[], 3, usize::MAX).eq([(3, usize::MAX)]));
    }

    #[test]
    fn joined_lists_forget_nothing() {
        let mut rng = Rng(92);
        for _ in 0..300 {
            let len = rng.below(60);
            let mut list = || {
                let often = 1 + rng.below(6);
                stretches((0..len).map(|_| rng.below(often) == 0))
            };
            let (one, other) = (list(), list());
            let either = stretches((0..len).map(|i| is_unknown(&one, i) || is_unknown(&other, i)));
            assert_eq!(joined(&one, &other), either);
        }
    }
}
