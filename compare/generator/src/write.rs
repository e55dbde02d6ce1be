//! Makes the lists and writes them to crates/replay/data, where the program that asks the port reads them.

use crate::groups::GROUPS;
use crate::list::List;
use rng::Rng;
use std::path::PathBuf;

const SEED: u64 = 20_260_930;

pub struct Made {
    pub name: &'static str,
    pub text: String,
    pub differences: Vec<String>,
    pub summary: String,
}

/// All lists, the same at every call. Each has its own random numbers.
pub fn lists() -> impl Iterator<Item = Made> {
    GROUPS.iter().enumerate().map(|(number, group)| {
        let mut list = List::new();
        let mut rng = Rng::new(SEED + number as u64);
        (group.write)(&mut list, &mut rng);
        let text = list.text();
        let asker = list.asker();
        // Codes of one digit have no answer.
        let has_answer = |line: &&str| line.split(' ').next().is_some_and(|code| code.len() > 1);
        let cases = text.lines().filter(has_answer).count();
        let asked = asker.counts;
        let summary = format!(
            "{}: {cases} cases, {} bytes; asked in all: {} answered by the Rust, {} refused by 01, {} only by 01",
            file_name(group.name),
            text.len(),
            asked.by_rust,
            asked.refused,
            asked.rust_has_none,
        );
        let differences = std::mem::take(&mut asker.differences);
        Made { name: group.name, text, differences, summary }
    })
}

pub fn file_name(group: &str) -> String {
    format!("{group}.txt")
}

pub fn path(group: &str) -> PathBuf {
    PathBuf::from(env!("CARGO_MANIFEST_DIR"))
        .join("../../crates/replay/data")
        .join(file_name(group))
}

pub fn write() -> bool {
    let mut good = true;
    for made in lists() {
        println!("{}", made.summary);
        for difference in made.differences.iter().take(5) {
            println!("the Rust differs from document 01:\n{difference}");
            good = false;
        }
        if let Err(error) = std::fs::write(path(made.name), &made.text) {
            println!("{} can't be written: {error}", file_name(made.name));
            good = false;
        }
    }
    good
}

#[cfg(test)]
mod tests {
    use crate::groups::file::ROOM;
    use crate::line::Numbers;
    use crate::op::Op;
    use std::sync::OnceLock;

    fn make() -> Vec<String> {
        super::lists().map(|made| made.text).collect()
    }

    fn texts() -> &'static [String] {
        static MADE: OnceLock<Vec<String>> = OnceLock::new();
        MADE.get_or_init(make)
    }

    #[test]
    fn writes_the_same_twice() {
        assert!(texts() == make());
    }

    /// What crates/replay/data/README.md promises a reader with little memory.
    #[test]
    fn fits_a_reader() {
        let most = [4_194_304, 655_360, 20_480, 640, 20, 524_288];
        for text in texts() {
            assert!(text.len() < 100_000);
            for line in text.lines() {
                assert!(line.len() < 1_000);
                if let Some(lengths) = line.strip_prefix("1 ") {
                    let lengths = lengths.split(' ').map(|n| n.parse::<u64>().unwrap());
                    assert!(lengths.zip(most).all(|(length, most)| length <= most), "{line}");
                }
                let in_memory = match Op::read(&mut Numbers::new(line)) {
                    Some(Op::PutFile { at, .. }) => at < ROOM,
                    Some(Op::Write { output: count } | Op::Says { count }) => count <= ROOM,
                    Some(Op::Read { count, .. }) => count <= ROOM,
                    Some(Op::Salvage { count, list, .. }) => count <= ROOM && list <= 256,
                    Some(Op::Across(across)) => across.stretches.len() <= 256,
                    _ => true,
                };
                assert!(in_memory, "{line}");
            }
        }
    }

    /// With the numbers that document 01 prints, in its order, and CR 13's bursts that share changes; then CR 6's order, forward
    /// and backward; then the files that are worked by hand in document/file.rs, and salvaged: the list 0, 3 has the digest
    /// 1 x 257 + 3 + 1; then searches across unknown stretches that are worked by hand in document/fillings.rs, and borders of
    /// row 18.
    #[test]
    fn holds_the_shelf_examples() {
        let lists = texts();
        let a = "11 8 0 0 1 1 0 2 2 3 0 0 8";
        let b = "11 10 0 1 0 0 0 0 0 0 1 0 0 0 10";
        let [half, one_and_a_half, four] = [0.5f64, 1.5, 4.0].map(f64::to_bits);
        let start = format!("51 8 4 4 0 {half} 0 1 0");
        for (list, lines) in [
            (1, vec![a, "20 1 0 0 0 1 2", "20 1 7 0 0 0", "20 1 18446744073709551615 1 0 0"]),
            (1, vec!["21 1 6 0 0 1 4", "21 1 100 0 0 1 7", "22 0 8 0 0 1 0 3 3", "22 4 4 0 0 0"]),
            (1, vec!["23 0 8 1 0 4", "23 4 4 1 0 0"]),
            (2, vec![a, "30 1 3 4 0 1 0 0 1 2 7 1 0", "30 1 3 3 0 1 0 0 1 2 4 0 0"]),
            (2, vec![b, "30 1 5 4 3 9 0 0 1 1 2 0 0"]),
            (2, vec!["11 5 0 1 0 1 0 0 0 5", "30 1 2 2 0 2 0 0 1 1 4 1 1"]),
            (2, vec!["30 1 1 2 0 1 0 0 1 1 3 1 0", "30 1 3 2 0 1 0 0 1 2 4 0 1"]),
            (3, vec![a, &format!("40 0 {four} 2 4 0 0 4 0 1 0 3")]),
            (3, vec![&format!("40 {one_and_a_half} {half} 1 2 0 0 2 0 1")]),
            (4, vec![&format!("{start} 0 0 0 1 2 0"), "52 2 0 0 0 0 0", "52 3 0 1 1 0 0 1"]),
            (4, vec!["14 0 0 4 1 2 0 17041158", "55 1 0 0 0 1 1", "16 0 40 40 0 0 4 0 0 1 1"]),
            (4, vec![&format!("{start} 0 0 0 1 2 0"), "52 1 1 0 0 0", "14 0 0 0 0 0 1 0"]),
            (4, vec![&format!("{start} 3 0 0 1 2 0"), "52 1 1 0 0 0", "14 0 0 1 1 0 0 2"]),
            (4, vec![&format!("51 8 3 0 1 {half} 3 1 0 0 0 0 1 2 0")]),
            (0, vec![a, "15 8 1 9", "15 7 0 0 3"]),
            (5, vec!["11 5 0 1 3 2 0 0 0 5", "24 0 1 1 0 4 4 0 0"]),
            (5, vec!["11 5 0 2 3 1 0 0 0 5", "24 0 1 1 0 18446744073709551612 0 4 0"]),
            (6, vec!["2 1 1 0 0 0", "63 1 0 512", "60 0 1 15", "60 511 1 15", "60 512 1 0 512"]),
            (6, vec!["11 6 1 2 3 4 5 255 0 0 3", "2 2 3 3 1 2", "63 1 0 1024", "60 0 1 15"]),
            (6, vec!["62 512 1 0 2 3 1 2", "62 513 1 0 2 3 1 2", "62 1024 1 0 2 3 1 2"]),
            (7, vec!["1 1 5 5 5 5 0", "64 1 512 0 1 17"]),
            (7, vec!["64 1 511 2 1 17", "64 1 512 0 1 0 1 0 0 0 0"]),
            (7, vec!["64 3 511 2 1 17", "64 3 1024 0 1 0 2 3 0 0 0"]),
            (7, vec!["64 3 512 1 1 15", "64 3 512 2 1 0 2 3 1 3 261"]),
            (7, vec!["64 3 1023 3 1 0 2 3 1 3 261", "14 0 0 3 1 2 0 66307"]),
            (8, vec![a, "25 1 0 2 2 2 1 0 1 7", "26 1 0 2 2 2 1 0 0", "27 1 0 2 2 2 1 0 1 2"]),
            (8, vec!["25 1 4 2 2 2 1 0 1 7", "26 1 4 2 2 2 1 0 0", "27 1 4 2 2 2 1 0 1 7"]),
            (8, vec!["28 1 4 2 2 2 1 0 1 4", "25 1 6 2 2 2 1 0 1 7", "26 1 6 2 2 2 1 0 0"]),
            (8, vec!["27 1 0 2 0 1 1 0 1 1", "28 1 0 2 0 1 1 0 0", "25 1 6 2 0 1 1 0 1 7"]),
            (8, vec!["25 1 6 2 7 1 1 0 0", "26 1 6 2 7 1 1 0 1 4", "27 1 6 2 7 1 1 0 1 7"]),
            (8, vec!["25 1 0 0 0 0 1 2", "26 1 0 0 0 0 0", "27 1 0 0 0 0 1 2", "28 1 0 0 0 0 0"]),
            (8, vec!["27 256 0 2 2 2 1 0 0", "28 256 0 2 2 2 1 0 0"]),
            (8, vec!["28 1 3 2 7 1 1 0 1 2", "25 1 3 2 7 2 1 18"]),
            (8, vec!["28 1 3 4 2 2 4 1 1 18", "25 1 3 4 2 2 3 1 1 18"]),
        ] {
            let lines = lines.join("\n");
            assert!(lists[list].contains(&lines), "no\n{lines}");
        }
    }
}
