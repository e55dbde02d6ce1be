//! The commands of docs/GUIDE.md print what it says, its C stands in the example, and its tables hold.

mod common;

use capture::{Condition, Needs, Recorder, Refusal, Settings, Wish};
use common::{Folder, TOOL};
use std::env;
use std::path::Path;
use std::process::Command;

const GUIDE: &str = include_str!("../../../docs/GUIDE.md");

/// The commands of the guide's console blocks, each with what it prints.
fn commands() -> Vec<(String, String)> {
    let mut commands: Vec<(String, String)> = Vec::new();
    for block in GUIDE.split("```console\n").skip(1) {
        let (block, _) = block.split_once("```").unwrap();
        for line in block.lines() {
            match line.strip_prefix("$ ") {
                Some(command) => commands.push((command.to_string(), String::new())),
                None => commands.last_mut().unwrap().1 += &format!("{line}\n"),
            }
        }
    }
    commands
}

#[test]
fn each_command_prints_what_the_guide_says() {
    let folder = Folder::new("guide");
    let tool = Path::new(TOOL).parent().unwrap();
    let paths = env::split_paths(&env::var_os("PATH").unwrap()).collect::<Vec<_>>();
    let path = env::join_paths([tool.to_path_buf()].into_iter().chain(paths)).unwrap();
    let commands = commands();
    assert!(commands.len() > 10);
    for (command, printed) in commands {
        let shell = format!("exec 2>&1; {command}");
        let run = Command::new("sh")
            .args(["-c", &shell])
            .current_dir(&folder.0)
            .env("PATH", &path)
            .output()
            .unwrap();
        assert_eq!(String::from_utf8_lossy(&run.stdout), printed, "{command}");
    }
}

/// `examples/c/run` compiles and runs the example.
#[test]
fn the_c_of_the_guide_stands_in_the_example() {
    let example = include_str!("../../../examples/c/turner.c");
    let mut blocks = GUIDE.split("```c\n").skip(1).peekable();
    assert!(blocks.peek().is_some());
    for block in blocks {
        let (block, _) = block.split_once("```").unwrap();
        for line in block.lines() {
            assert!(example.lines().any(|other| other.trim() == line.trim()), "{line}");
        }
    }
}

/// The rows of the table with this heading, as their cells.
fn rows(heading: &str) -> Vec<Vec<&'static str>> {
    let mut lines = GUIDE.lines().skip_while(|line| !line.starts_with(heading));
    assert!(lines.next().is_some() && lines.next().is_some(), "{heading}");
    let rows = lines.take_while(|line| line.starts_with('|'));
    rows.map(|row| row.trim_matches('|').split('|').map(str::trim).collect()).collect()
}

#[test]
fn memory_is_as_much_as_the_guide_says() {
    let rows = rows("| Capacity, samples |");
    assert_eq!(rows.len(), 3);
    for row in rows {
        let numbers: Vec<usize> = row
            .iter()
            .map(|cell| {
                cell.chars().filter(char::is_ascii_digit).collect::<String>().parse().unwrap()
            })
            .collect();
        let bytes = |channels| Needs::of(channels, numbers[0]).unwrap().bytes();
        assert_eq!(numbers[1..], [bytes(8), bytes(16)]);
    }
}

#[test]
fn refusals_say_what_the_guide_says() {
    let refusals = [
        Refusal::Capacity,
        Refusal::Memory,
        Refusal::Line,
        Refusal::Limit,
        Refusal::WishKind,
        Refusal::WishNumber,
        Refusal::Pretrigger,
        Refusal::Full,
        Refusal::Place,
        Refusal::View,
        Refusal::Width,
        Refusal::Grant,
        Refusal::Before,
        Refusal::EncoderLines,
        Refusal::FileRoom,
        Refusal::File,
        Refusal::Block0,
        Refusal::Stretches,
    ];
    let rows = rows("| No. |");
    assert_eq!(rows.len(), refusals.len());
    for (row, refusal) in rows.iter().zip(refusals) {
        // What a caller from C may see besides stands behind a semicolon.
        let words = row[1].split("; from C").next().unwrap();
        assert_eq!(format!("refused, {}: {words}", row[0]), refusal.to_string());
    }
}

/// The bytes of each row of a table, as a number, low byte first; rows follow each other, and have all bytes.
fn fields(heading: &str, bytes: &[u8]) -> Vec<u64> {
    let mut end = 0;
    let fields = rows(heading).into_iter().map(|row| {
        let (first, last) = row[0].split_once('–').unwrap_or((row[0], row[0]));
        let (first, last): (usize, usize) = (first.parse().unwrap(), last.parse().unwrap());
        assert_eq!(first, end, "{}", row[1]);
        end = last + 1;
        bytes[first..end].iter().rev().fold(0, |number, &byte| number << 8 | u64::from(byte))
    });
    let fields = fields.collect();
    assert_eq!(end, bytes.len(), "{heading}");
    fields
}

#[test]
fn files_are_laid_out_as_the_guide_says() {
    let settings = Settings::new(16, 400)
        .limit(400)
        .term(0, Condition::Rising)
        .pretrigger(Wish::Fraction(0.9));
    let mut recorder = Recorder::start(&settings).unwrap();
    let samples = [vec![0; 2 * 300], [7, 9].repeat(100)].concat();
    recorder.push(&samples).unwrap();
    let mut file = Vec::new();
    recorder.into_capture().write_to(&mut file).unwrap();

    let blocks: Vec<&[u8]> = file.chunks(512).collect();
    for (number, (block, count)) in blocks.iter().zip([18, 500, 300]).enumerate() {
        let sum: u64 = (2..).zip(&block[2..]).map(|(place, &byte)| place * u64::from(byte)).sum();
        let head = &fields("| Bytes |", block)[..4];
        assert_eq!(head, [sum % 65_521, count, number as u64, 0]);
        assert!(block[12 + count as usize..].iter().all(|&byte| byte == 0));
    }
    assert_eq!(fields("| Bytes of the payload |", &blocks[0][12..30]), [2, 1, 400, 300]);
    assert_eq!([&blocks[1][12..], &blocks[2][12..312]].concat(), samples);
}
