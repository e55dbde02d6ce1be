//! How fast the unchanged Rust is, and beside it the port. See ../README.md.

mod plain;
mod plain_file;
mod rattle;
mod rust;
mod side;
mod table;
mod work;

use table::Table;
use work::{
    stretches, Across, AllBursts, Appends, Bursts, Encoder, Filing, Pushes, Ranges, Row, Salvaging,
    Samples, Sort, Wait, Walk,
};

const CHUNK: u64 = 1_048_576;

/// Four chunks.
const LEN: u64 = 4 * CHUNK;

/// Small pushes take long: fewer samples.
const FEW: u64 = 393_216;

fn main() {
    keep_memory();
    Table::heading();
    match std::env::args().nth(1).as_deref() {
        Some("length") => return [1, 2].into_iter().for_each(lengths),
        Some("encoder") => {
            return [1, 2].into_iter().for_each(|unit| encoders(&mut Table::new(unit)))
        }
        _ => {}
    }
    for unit in [1, 2] {
        let mut table = Table::new(unit);
        appends(&table);
        pushes(&table);
        for gap in [2, 100, 1_000, 100_000] {
            searches(&mut table, gap);
        }
        questions(&mut table);
        across(&mut table);
        list_check(&mut table);
        encoders(&mut table);
        files(&mut table);
    }
}

/// Once a block of this size was freed, the usual allocator keeps memory for the next round,
/// and the Rust, which allocates as it stores, isn't charged for fresh pages each time.
fn keep_memory() {
    drop(std::hint::black_box(vec![1u8; 30_000_000]));
}

fn noise(unit: usize, push: usize) -> Samples {
    Samples::noise(unit, if push < 1_000 { FEW } else { LEN })
}

fn appends(table: &Table) {
    for push in [3, 32, 4_096, 1_048_576] {
        let samples = noise(table.unit, push);
        let work = Appends { samples: &samples, push };
        table.line(&format!("append, pushes of {push}"), "sample", |side| side.append(&work));
    }
}

fn pushes(table: &Table) {
    for (kind, wait) in [
        ("waiting for a rise", Wait::Rising),
        ("waiting for an edge", Wait::Edge),
        ("unarmed", Wait::Nothing),
    ] {
        for push in [3, 4_096, 1_048_576] {
            let samples = noise(table.unit, push);
            let work = Pushes { samples: &samples, push, wait, pre: 100_000 };
            table.line(&format!("push of {push}, {kind}"), "sample", |side| side.push(&work));
        }
    }
}

fn searches(table: &mut Table, gap: u64) {
    table.hold(&Samples::with_changes(table.unit, LEN, gap));
    for (lines, mask) in [("one line", 2), ("all lines", 0xFFFF)] {
        let work = Walk { mask, len: LEN };
        let name = format!("a change every {gap}, {lines}");
        table.line(&format!("next, {name}"), "change", |side| side.next_change(&work));
        if (gap, mask) == (100, 2) {
            table
                .line(&format!("mill next, {name}"), "change", |side| side.mill_next_change(&work));
        }
        table.line(&format!("previous, {name}"), "change", |side| side.prev_change(&work));
        without_stretches(table, mask, &format!("every {gap}, {lines}"));
    }
}

/// Certain and possible changes without a stretch, beside the ordinary search.
fn without_stretches(table: &Table, mask: u16, name: &str) {
    for (sort, kind) in [(Sort::Certain, "certain"), (Sort::Possible, "possible")] {
        for (back, way) in [(false, "next"), (true, "previous")] {
            let walk = Walk { mask, len: LEN };
            let work = Across { walk, sort, back, stretches: Vec::new() };
            table.line_beside(
                [&format!("{kind} {way}, {name}"), way],
                "change",
                [&|side| side.across(&work), &|side| match back {
                    false => side.next_change(&work.walk),
                    true => side.prev_change(&work.walk),
                }],
            );
        }
    }
}

/// One certain search across all stretches of captures of one chunk and of four, in whose files each second block or each
/// hundredth is bad, while other lines change often or seldom.
fn across(table: &mut Table) {
    for len in [CHUNK, LEN] {
        for (blocks, every) in [("2nd", 2), ("100th", 100)] {
            let stretches = stretches(table.unit, len, every);
            for (lines, gap) in [("busy", 4), ("quiet", 10_000)] {
                table.hold(&Samples::stretched(table.unit, len, gap, &stretches));
                for (back, way) in [(false, "next"), (true, "prev")] {
                    let (walk, sort) = (Walk { mask: 2, len }, Sort::Certain);
                    let work = Across { walk, sort, back, stretches: stretches.clone() };
                    let chunks = len / CHUNK;
                    let name = format!("across {chunks}M by {way}, each {blocks} block, {lines}");
                    table.line_beside(
                        [&name, "a find"],
                        "stretch",
                        [&|side| side.crossed(&work), &|side| side.finds(&work)],
                    );
                }
            }
        }
    }
}

/// What row 18 takes over 1,000 stretches: a search that finds a change at once with their list, beyond that without one.
fn list_check(table: &mut Table) {
    let unit = table.unit;
    let mut stretches = stretches(unit, LEN, 2);
    stretches.truncate(2_000);
    table.hold(&Samples::with_changes(unit, LEN, 2));
    let work = |stretches| {
        let walk = Walk { mask: 0xFFFF, len: LEN };
        Across { walk, sort: Sort::Certain, back: false, stretches }
    };
    let (listed, empty) = (work(stretches), work(Vec::new()));
    table.line_beyond(
        ["list of 1000 stretches", "the search without one"],
        "stretch",
        [&|side| side.first(&listed, 1_000), &|side| side.first(&empty, 1_000)],
    );
}

fn questions(table: &mut Table) {
    table.hold(&Samples::with_changes(table.unit, LEN, 4));
    for len in [10, 1_000, 1_000_000] {
        let work = Ranges::random(LEN, len, 1_000);
        table.line(&format!("summary of {len}"), "call", |side| side.summary(&work));
        if len == 1_000 {
            table.line(&format!("mill summary of {len}"), "call", |side| side.mill_summary(&work));
        }
    }
    let work = Ranges::whole(LEN, 1_000);
    table.line("summary of the whole capture", "call", |side| side.summary(&work));
    table.line_beside(
        ["density of the whole capture", "its summary"],
        "call",
        [&|side| side.density(&work), &|side| side.summary(&work)],
    );
    for (len, count) in [(1_000, 100), (1_000_000, 1)] {
        let work = Ranges::random(LEN, len, count);
        table.line(&format!("samples, {len}"), "sample", |side| side.samples(&work));
    }
    for (name, start, spp) in [
        ("render, 0.5 samples a pixel", 1_000_000.25, 0.5),
        ("render, 10 samples a pixel", 1_000_000.25, 10.0),
        ("render, 1000 samples a pixel", 1_000_000.25, 1_000.0),
        ("render, the whole capture", 0.0, LEN as f64 / 1_920.0),
    ] {
        let work = Row { start, spp, width: 1_920 };
        table.line(name, "pixel", |side| side.render(&work));
        if spp == 10.0 {
            table.line(&format!("mill {name}"), "pixel", |side| side.mill_render(&work));
        }
    }
    bursts(table, "burst, dense", 16, 1_000);
    all_bursts(table, "a change every 4", 5);
    table.hold(&Samples::with_changes(table.unit, LEN, 1_000));
    bursts(table, "burst, sparse", 2_000, 100);
    all_bursts(table, "a change every 1000", 1_000);
}

/// An encoder on two lines beside each other, in the higher byte where there are two: of one chunk,
/// which caches hold, and of four.
fn encoders(table: &mut Table) {
    for len in [CHUNK, LEN] {
        for (name, gap) in [
            ("a step every 2 to 10", Some([2, 10])),
            ("a step every 100", Some([50, 150])),
            ("a step every 1000", Some([500, 1_500])),
            ("no step", None),
        ] {
            turning(table, len, name, gap);
        }
    }
}

fn turning(table: &mut Table, len: u64, name: &str, gap: Option<[u64; 2]>) {
    let lines = if table.unit == 1 { [3, 4] } else { [11, 12] };
    let samples = Samples::turning(table.unit, len, lines, gap);
    table.hold(&samples);
    let work = Encoder { samples: &samples, lines };
    let whole = format!("encoder of {}M", len / CHUNK);
    table.line(&format!("{whole}, {name}"), "sample", |side| side.encoder(&work));
    if (len, gap) == (CHUNK, Some([50, 150])) {
        let name = format!("{whole} by a mill, {name}");
        table.line(&name, "sample", |side| side.mill_encoder(&work));
    }
}

/// Files of few samples and of many.
fn files(table: &mut Table) {
    for (name, len, times) in [("1000", 1_000, 1_000), ("4M", LEN, 1)] {
        let samples = Samples::noise(table.unit, len);
        table.hold(&samples);
        let work = Filing { samples: &samples, times };
        table.line(&format!("write of {name}"), "sample", |side| side.write(&work));
        table.line_beside(
            [&format!("read of {name}"), "append and one pass of the check"],
            "sample",
            [&|side| side.read(&work), &|side| side.append_and_check(&work)],
        );
        salvage(table, &format!("salvage of {name}"), Salvaging { filing: &work, every: None });
        if len == LEN {
            let name = format!("salvage of {name}, every second block bad");
            salvage(table, &name, Salvaging { filing: &work, every: Some(2) });
        }
    }
}

/// A file with bad blocks, beside the reading of the file that it was.
fn salvage(table: &Table, name: &str, work: Salvaging) {
    table.line_beside(
        [name, "read"],
        "sample",
        [&|side| side.salvage(&work), &|side| side.read(work.filing)],
    );
}

/// How cost grows with the capture: a lone change in its middle, all of it as a row of pixels, and bursts in it.
fn lengths(unit: usize) {
    for power in (16..=26).step_by(2) {
        let len = 1 << power;
        let mut table = Table::new(unit);
        table.hold(&Samples::lone(unit, len));
        let work = Walk { mask: 1, len };
        table.line(&format!("length 2^{power}: next"), "change", |side| side.next_change(&work));
        table
            .line(&format!("length 2^{power}: previous"), "change", |side| side.prev_change(&work));
        table.hold(&Samples::with_changes(unit, len, 4));
        let work = Row { start: 0.0, spp: len as f64 / 1_920.0, width: 1_920 };
        table.line(&format!("length 2^{power}: render"), "pixel", |side| side.render(&work));
        let places = Ranges::random(len, 1, 20);
        let work = Bursts { places, max_gap: 16, budget: 100 };
        table.line(&format!("length 2^{power}: burst"), "call", |side| side.burst_at(&work));
    }
}

fn bursts(table: &Table, name: &str, max_gap: u64, budget: u64) {
    let places = Ranges::random(LEN, 1, 20);
    let work = Bursts { places, max_gap, budget };
    table.line(name, "call", |side| side.burst_at(&work));
}

fn all_bursts(table: &Table, name: &str, max_gap: u64) {
    let work = AllBursts { max_gap };
    let name = format!("all bursts, {name}, gap {max_gap}");
    table.line(&name, "burst", |side| side.all_bursts(&work));
}
