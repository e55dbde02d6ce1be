//! "A call that gives 1 to 20 has stored nothing": each export is refused by each of its rows while record, lent memory,
//! output and what out pointers point at lie in pages that may not be written, and does not fault. Calls that answer write no
//! more than the header says.

use crate::calls::{self, recorder, EXPORTS};
use crate::given::{Given, Lent, LEN};
use crate::pages::{ended, Ended, Pages};
use crate::rows::{self, Row};
use std::collections::BTreeSet;

const NONE: u32 = 100;

/// An export in a state, and what refuses it there.
struct Tried {
    name: &'static str,
    state: (&'static str, fn(&mut Given)),
    call: fn(&Lent) -> u32,
    rows: Vec<&'static [Row]>,
}

impl Tried {
    /// What it is called in a line.
    fn named(&self) -> String {
        format!("{}{}", self.name, self.state.0)
    }
}

/// The recorder waits for line 15 to be high, with nothing stored.
fn waits(g: &mut Given) {
    g.empty();
    (g.record[recorder::WAITS], g.record[recorder::HIGH_LINES]) = (1, 1 << 15);
}

fn waits_for_many(g: &mut Given) {
    waits(g);
    g.bytes = vec![0; 20];
}

/// It waits for line 15 to be low, which it is.
fn fires(g: &mut Given) {
    (g.record[recorder::WAITS], g.record[recorder::LOW_LINES]) = (1, 1 << 15);
}

/// Each export with a code.
fn exports() -> Vec<Tried> {
    let tried = |name, call, rows: &[_]| {
        let state: (_, fn(&mut Given)) = ("", |_| ());
        Tried { name, state, call, rows: rows.to_vec() }
    };
    let question =
        |name, call, own: &[_]| tried(name, call, &[&[rows::STORE, rows::MEMORY], own].concat());
    let push = |label, state: fn(&mut Given), own: &[_]| {
        let own = [&[rows::RECORDER], own].concat();
        Tried { state: (label, state), ..question("lc_push", calls::push, &own) }
    };
    vec![
        tried("lc_needs", calls::needs, &[rows::CHANNELS]),
        tried("lc_start", calls::start, &[rows::CHANNELS, rows::MEMORY]),
        question("lc_append", calls::append, &[rows::FULL]),
        question("lc_get", calls::get, &[rows::PLACE]),
        question("lc_samples", calls::samples, &[rows::OUTPUT]),
        question("lc_whole", calls::whole, &[]),
        question("lc_summary", calls::summary, &[]),
        question("lc_density", calls::density, &[]),
        question("lc_next_change", calls::next_change, &[]),
        question("lc_prev_change", calls::prev_change, &[]),
        question("lc_burst_at", calls::burst_at, &[]),
        question("lc_encoder", calls::encoder, &[rows::ENCODER]),
        question("lc_render", calls::render, &[rows::VIEW]),
        tried("lc_file_len", calls::file_len, &[rows::STORE]),
        tried("lc_file_says", calls::file_says, &[rows::BLOCK_0]),
        question("lc_write", calls::write, &[rows::FILE_OUTPUT]),
        tried(
            "lc_read",
            calls::read,
            &[rows::CHANNELS, rows::BLOCK_0, rows::BLOCKS, rows::FILE_ROOM],
        ),
        tried(
            "lc_salvage",
            calls::salvage,
            &[rows::CHANNELS, rows::SALVAGE_BLOCK_0, rows::FILE_ROOM, rows::LIST],
        ),
        question("lc_next_certain", calls::next_certain, &[rows::STRETCHES]),
        question("lc_prev_certain", calls::prev_certain, &[rows::STRETCHES]),
        question("lc_next_possible", calls::next_possible, &[rows::STRETCHES]),
        question("lc_prev_possible", calls::prev_possible, &[rows::STRETCHES]),
        question("lc_mill_extent", calls::mill_extent, &[]),
        question("lc_mill_get", calls::mill_get, &[rows::BEFORE, rows::MILL_PLACE]),
        question("lc_mill_samples", calls::mill_samples, &[rows::BEFORE, rows::OUTPUT]),
        question("lc_mill_summary", calls::mill_summary, &[rows::BEFORE, rows::END_BEFORE]),
        question("lc_mill_next_change", calls::mill_next_change, &[rows::GRANT, rows::BEFORE]),
        question("lc_mill_prev_change", calls::mill_prev_change, &[rows::GRANT, rows::BEFORE]),
        question("lc_mill_burst_at", calls::mill_burst_at, &[rows::GRANT, rows::BEFORE]),
        question("lc_mill_encoder", calls::mill_encoder, &[rows::ENCODER, rows::ENCODER_GRANT]),
        question("lc_mill_render", calls::mill_render, &[rows::VIEW]),
        tried(
            "lc_feeder_start",
            calls::feeder_start,
            &[rows::CHANNELS, rows::MEMORY, rows::SETTINGS],
        ),
        push(" going on", |_| (), &[rows::FULL]),
        push(" waiting", waits, &[]),
        push(" of many samples waiting", waits_for_many, &[]),
        push(" that fires", fires, &[rows::FULL, rows::KEPT_FULL]),
    ]
}

/// What is read-only.
#[derive(Clone, Copy)]
enum ReadOnly {
    Nothing,
    /// What a question has no call to write in.
    Kept,
    AllButCount,
    All,
}

/// Calls in a child process, and says how it ended.
fn called(given: Given, read_only: ReadOnly, call: fn(&Lent) -> u32) -> Ended {
    let lent = Lent::new(given);
    let pages: &[&Pages] = match read_only {
        ReadOnly::Nothing => &[],
        ReadOnly::Kept => &[&lent.kept],
        ReadOnly::AllButCount => &[&lent.kept, &lent.out],
        ReadOnly::All => &[&lent.kept, &lent.out, &lent.count],
    };
    ended(pages, || call(&lent))
}

/// A line where a call did not end with a code.
fn line(name: &str, what: &str, expected: u32, ended: Ended) -> Option<String> {
    match ended {
        Ended::Code(code) if code == expected => None,
        Ended::Code(code) => Some(format!("{name}, {what}: gives {code} and not {expected}")),
        Ended::Fault => Some(format!("{name}, {what}: writes, and is to give {expected} without")),
    }
}

#[track_caller]
fn none(lines: Vec<String>) {
    assert!(lines.is_empty(), "\n{}", lines.join("\n"));
}

#[test]
fn a_refused_call_stores_nothing() {
    let given = Given::new();
    let mut lines = Vec::new();
    for tried in exports() {
        let given = given.with(tried.state.1);
        for &(row, what, change) in tried.rows.iter().copied().flatten() {
            let ended = called(given.with(change), ReadOnly::All, tried.call);
            lines.extend(line(&tried.named(), &format!("{row}, {what}"), row, ended));
        }
    }
    none(lines);
}

/// Rows stand in their order: where two hold, the call gives the number of the first.
#[test]
fn the_first_row_that_holds_refuses() {
    let given = Given::new();
    let mut lines = Vec::new();
    let named = ["lc_encoder", "lc_mill_encoder", "lc_write", "lc_read", "lc_salvage"];
    let across = ["lc_next_certain", "lc_prev_certain", "lc_next_possible", "lc_prev_possible"];
    let named = [&named[..], &across].concat();
    for tried in exports().iter().filter(|tried| named.contains(&tried.name)) {
        for (at, &first) in tried.rows.iter().enumerate() {
            for &(_, other, also) in tried.rows[at + 1..].iter().copied().flatten() {
                for &(row, what, change) in first {
                    let ended = called(given.with(also).with(change), ReadOnly::All, tried.call);
                    let what = format!("{row}, {what}, and {other}");
                    lines.extend(line(tried.name, &what, row, ended));
                }
            }
        }
    }
    none(lines);
}

#[test]
fn every_export_is_tried() {
    let mut tried: BTreeSet<_> = exports().iter().map(|export| export.name).collect();
    tried.insert("lc_raw"); // by a test of its own: it has no code
    assert_eq!(tried, EXPORTS.iter().map(|export| export.0).collect());
}

/// Where no row refuses, each call answers if it may write, and faults if it may not: a store would have been seen above.
#[test]
fn a_call_that_answers_faults_there() {
    let given = Given::new();
    for tried in exports() {
        let mut given = given.with(tried.state.1);
        let whole = tried.name == "lc_whole"; // it writes which node is wrong
        given.levels[0][0] ^= u16::from(whole);
        let code = if whole { NONE } else { 0 };
        let name = tried.named();
        assert_eq!(
            called(given.clone(), ReadOnly::Nothing, tried.call),
            Ended::Code(code),
            "{name}"
        );
        assert_eq!(called(given, ReadOnly::All, tried.call), Ended::Fault, "{name}");
    }
}

#[test]
fn a_question_stores_behind_its_out_pointers_alone() {
    let given = Given::new();
    let mut lines = Vec::new();
    for tried in exports() {
        if !["lc_append", "lc_push", "lc_read", "lc_salvage"].contains(&tried.name) {
            let ended = called(given.clone(), ReadOnly::Kept, tried.call);
            lines.extend(line(&tried.named(), "answered", 0, ended));
        }
    }
    none(lines);
}

#[test]
fn a_question_that_finds_nothing_stores_nothing_or_its_count() {
    let given = Given::new();
    let mut lines = Vec::new();
    let mut asked = |name, call, read_only, code, change| {
        let ended = called(given.with(change), read_only, call);
        lines.extend(line(name, "nothing found", code, ended));
    };
    let (all, count) = (ReadOnly::All, ReadOnly::AllButCount);
    asked("lc_whole", calls::whole as fn(&Lent) -> u32, all, 0, (|_| ()) as fn(&mut Given));
    asked("lc_summary", calls::summary, all, NONE, |g| g.end = g.place);
    asked("lc_mill_summary", calls::mill_summary, all, NONE, |g| g.mill_end = g.mill_place);
    // line 2 does not change
    let quiet: fn(&mut Given) = |g| (g.grant, g.mask) = (0b100, 0b100);
    asked("lc_next_change", calls::next_change, count, NONE, quiet);
    asked("lc_prev_change", calls::prev_change, count, NONE, quiet);
    asked("lc_burst_at", calls::burst_at, count, NONE, quiet);
    asked("lc_mill_next_change", calls::mill_next_change, count, NONE, quiet);
    asked("lc_mill_prev_change", calls::mill_prev_change, count, NONE, quiet);
    asked("lc_mill_burst_at", calls::mill_burst_at, count, NONE, quiet);
    // nor is there a change of it that is certain; unknown samples may change in any line that there is
    asked("lc_next_certain", calls::next_certain, all, NONE, quiet);
    asked("lc_prev_certain", calls::prev_certain, all, NONE, quiet);
    let no_line: fn(&mut Given) = |g| g.mask = 0;
    asked("lc_next_possible", calls::next_possible, all, NONE, no_line);
    asked("lc_prev_possible", calls::prev_possible, all, NONE, no_line);
    let known: fn(&mut Given) = |g| (g.mask, g.unknown) = (0b100, vec![]);
    asked("lc_next_possible", calls::next_possible, all, NONE, known);
    asked("lc_prev_possible", calls::prev_possible, all, NONE, known);
    none(lines);
}

/// Its part is empty where a row would refuse.
#[test]
fn raw_stores_two_places_alone() {
    let given = Given::new();
    let mut lines = Vec::new();
    let ended = called(given.clone(), ReadOnly::All, calls::raw);
    lines.extend(line("lc_raw", "answered", 2 * LEN as u32, ended));
    for &(row, what, change) in [rows::STORE, rows::MEMORY].into_iter().flatten() {
        let ended = called(given.with(change), ReadOnly::All, calls::raw);
        lines.extend(line("lc_raw", &format!("{row}, {what}"), 0, ended));
    }
    none(lines);
}
