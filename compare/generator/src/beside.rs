//! The port beside the Rust and the document: the recorded answers, what is asked once, then random captures for a given time.

use crate::bursts::Bursts;
use crate::document::rules;
use crate::encoders::Encoders;
use crate::feed::Feed;
use crate::files::Files;
use crate::groups::GROUPS;
use crate::line::Numbers;
use crate::list::{append, List};
use crate::mill::Mills;
use crate::noise::Noise;
use crate::op::Op;
use crate::port::Port;
use crate::salvages::Salvages;
use crate::shapes::{line, mask, Size, CHUNK};
use crate::side::Side;
use crate::unfinished::Unfinished;
use crate::unknowns::Unknowns;
use crate::write::{file_name, path};
use rng::Rng;
use std::time::{Duration, Instant};

/// Differences shown, and how many are enough.
const SHOWN: usize = 5;
const MANY: usize = 1_000;

pub fn run(seconds: u64, seed: u64) -> bool {
    if !port::LINKED {
        println!("no port: `tools/staticlib` makes target/staticlib/liblogic_core.a");
        return false;
    }
    let recorded = GROUPS.iter().map(|group| replay(group.name)).fold(true, |all, good| all & good);
    recorded & random(seconds, seed)
}

/// Asks the port every line of a list that it has a call for.
fn replay(name: &str) -> bool {
    let file = file_name(name);
    let Ok(stored) = std::fs::read_to_string(path(name)) else {
        println!("{file}: can't be read");
        return false;
    };
    let mut port = Port::default();
    let (mut asked, mut skipped, mut wrong) = (0, 0, 0);
    for (number, line) in stored.lines().enumerate() {
        let Some(op) = Op::read(&mut Numbers::new(line)) else {
            continue;
        };
        let answer = port.take(&op);
        if op.sets() {
            continue;
        }
        let Some(answer) = answer else {
            skipped += 1;
            continue;
        };
        asked += 1;
        let is = numbers(&op, answer);
        let mut faults = port.faults();
        if !line_says(line, &is) {
            faults.push(format!("the port says {is:?}"));
        }
        for fault in &faults {
            wrong += 1;
            if wrong <= SHOWN {
                println!("{file}: line {}, {line}: {fault}", number + 1);
            }
        }
    }
    let Port { counts, densities, .. } = port;
    println!(
        "{file}: {asked} lines asked of the port, {wrong} wrong, {skipped} skipped; {counts} counts of nodes and {densities} of changes compared"
    );
    wrong == 0
}

/// Code, arguments, refusal and values; who decides is left out.
fn numbers(op: &Op, answer: crate::side::Answer) -> (Vec<u64>, Vec<u64>) {
    let answer = match answer {
        Ok(values) => [0].into_iter().chain(values).collect(),
        Err(number) => vec![number],
    };
    (op.numbers(), answer)
}

fn line_says(line: &str, (asked, answer): &(Vec<u64>, Vec<u64>)) -> bool {
    let mut numbers = Numbers::new(line);
    let mut all = Vec::new();
    while let Some(number) = numbers.next() {
        all.push(number);
    }
    all[..asked.len()] == asked[..] && all[asked.len() + 1..] == answer[..]
}

fn random(seconds: u64, seed: u64) -> bool {
    let mut list = List::with_port();
    let mut rng = Rng::new(seed);
    let mut mills = Mills::default();
    let mut unfinished = Unfinished::default();
    let mut noise = Noise::default();
    let mut encoders = Encoders::default();
    let mut files = Files::default();
    let mut salvages = Salvages::default();
    let mut unknowns = Unknowns::default();
    let mut bursts = Bursts::default();
    let mut longs = 0;
    encoders.sweep(&mut list, &mut rng);
    files.sweep(&mut list, &mut rng);
    salvages.sweep(&mut list, &mut rng);
    unknowns.sweep(&mut list, &mut rng);
    bursts.sweep(&mut list, &mut rng);
    let begun = Instant::now();
    while begun.elapsed() < Duration::from_secs(seconds) && list.asker().differences.len() < MANY {
        let group = &GROUPS[rng.below(GROUPS.len() as u64) as usize];
        match rng.below(2_000) {
            0..=1 => {
                long(&mut list, &mut rng);
                longs += 1;
            }
            2..=9 => (group.random)(&mut list, &mut rng, Size::Big),
            10..=400 => (group.random)(&mut list, &mut rng, Size::Border),
            _ => (group.random)(&mut list, &mut rng, Size::Short),
        }
        mills.ask(&mut list, &mut rng);
        if rng.once_in(2) {
            bursts.ask(&mut list, &mut rng);
        }
        if rng.once_in(2) {
            unknowns.ask(&mut list, &mut rng);
        }
        if rng.once_in(4) {
            files.ask(&mut list, &mut rng);
        }
        if rng.once_in(4) {
            salvages.ask(&mut list, &mut rng);
        }
        unfinished.ask(&mut list, &mut rng);
        noise.ask(&mut list, &mut rng);
        if rng.once_in(2) {
            encoders.ask(&mut list, &mut rng);
        }
        list.text();
    }
    let asker = list.asker();
    for difference in asker.differences.iter().take(SHOWN) {
        println!("{difference}");
    }
    println!(
        "seed {seed}: {} answers of the port compared, {longs} long captures, {} different; the Rust answers {}, 01 refuses {}",
        asker.counts.by_port,
        asker.differences.len(),
        asker.counts.by_rust,
        asker.counts.refused,
    );
    let [by_rust, refused, alone] = asker.counts.mill;
    println!(
        "of these, mills asked {}: the Rust answers {by_rust}, 02 refuses {refused}, it alone answers {alone}; {} asked of two captures alike",
        by_rust + refused + alone,
        mills.twice,
    );
    println!("beside these, {} appends and pushes over memory that no call made", unfinished.made);
    let made = mills.other.counts + asker.port().map_or(0, |port| port.counts);
    let unmade = noise.port.counts + unfinished.port.counts;
    println!(
        "{} counts of nodes read compared with the walk's, {unmade} of them over memory that no call made",
        made + unmade,
    );
    let made = asker.port().map_or(0, |port| port.densities);
    let unmade = noise.port.densities + unfinished.port.densities;
    println!(
        "{} counts of changes compared with the nodes that memory holds, {unmade} of them over memory that no call made, {} cut at 2^32 - 1",
        made + unmade,
        noise.port.cut + unfinished.port.cut,
    );
    let made = mills.other.turns + asker.port().map_or(0, |port| port.turns);
    let unmade = noise.port.turns + unfinished.port.turns;
    println!(
        "{} encoders replayed, {unmade} of them over memory that no call made; {} runs beside their reverse",
        made + unmade,
        encoders.reversed,
    );
    let (writes, reads) = asker.port().map_or((0, 0), |port| (port.writes, port.reads));
    println!(
        "{} files written and {} read, {} written of two captures that hold the same; {} files with one byte changed were not read",
        writes + files.other.writes + noise.port.writes,
        reads + noise.port.reads,
        files.twice,
        files.changed,
    );
    let made = asker.port().map_or(0, |port| port.salvages);
    println!(
        "{} files salvaged, {} of them over memory that no call made; {} beside one that agrees outside some blocks; {} with one byte changed",
        made + salvages.other.salvages + noise.port.salvages,
        noise.port.salvages,
        salvages.twice,
        salvages.changed,
    );
    let (made, ordinary) = asker.port().map_or((0, 0), |port| (port.across, port.ordinary));
    println!(
        "{} searches across unknown stretches, {} of them over memory that no call made; {} held against every filling, {} without a stretch against the ordinary search, {} of two captures alike; {} changes of captures held against what was salvaged",
        made + unknowns.other.across + noise.port.across,
        noise.port.across,
        unknowns.filled,
        ordinary + unknowns.other.ordinary + noise.port.ordinary,
        unknowns.twice,
        unknowns.changes,
    );
    println!(
        "{} bursts asked for beside a plain scan, {} of them beside one of a smaller budget; {} pairs with jumps below their budgets",
        bursts.asked, bursts.larger, bursts.pairs,
    );
    asker.differences.is_empty()
}

/// Several chunks, exactly full or one sample short of it, in pushes of many sizes.
fn long(list: &mut List, rng: &mut Rng) {
    let channels = rng.pick(&[8, 16]);
    let unit = rules::unit(channels);
    let chunks = 1 + rng.below(3);
    let capacity = chunks * CHUNK + rng.pick(&[0, 0, 1, 31, 32]) - rng.pick(&[0, 0, 1]);
    let len = capacity - rng.pick(&[0, 1]);
    list.capture(channels, capacity);
    let lines = if unit == 1 { 0xFF } else { 0xFFFF };
    let mut at = 0;
    while at < len {
        let count = match rng.below(12) {
            0..=2 => 3,
            3..=4 => 32,
            5..=6 => 4_096,
            7 => CHUNK - at % CHUNK,
            8 => 200_000,
            _ => 1 + rng.below(3_000),
        };
        let count = count.min(len - at);
        at += count;
        let seed = rng.below(1 << 32);
        let noise = Feed::Noise { count, seed, mask: lines & mask(rng, 8 * unit) };
        list.say(Op::Append(match rng.below(3) {
            0 => Feed::Runs(vec![(count, seed as u16 & lines)]),
            // At most one piece: a push of its own.
            1 if count <= 32_768 => Feed::Bytes(noise.pieces(unit).concat()),
            _ => noise,
        }));
    }
    list.say(Op::Whole);
    list.say(Op::Run);
    list.say(Op::Density { a: 0, b: u64::MAX });
    list.say(Op::Encoder { a: 0, b: 1 });
    list.say(Op::Encoder { a: line(rng, 8 * unit), b: line(rng, 8 * unit) });
    for _ in 0..12 {
        let place = near(rng, len);
        list.say(Op::Next { mask: mask(rng, 8 * unit), from: place });
        list.say(Op::Prev { mask: mask(rng, 8 * unit), from: place });
        let end = near(rng, len);
        list.say(Op::Summary { a: place, b: end });
        list.say(Op::Density { a: place, b: end });
        list.say(Op::Get(place));
        list.say(Op::Samples { start: place, count: 40, output: 40 });
        list.say(Op::Raw(rng.below(chunks + 2)));
    }
    let room = capacity - len;
    for count in [room + 1, room, 1, 0] {
        list.say(append(channels, &vec![1; count as usize]));
        list.say(Op::Run);
    }
}

/// A place around a chunk's border, around the end, or anywhere.
fn near(rng: &mut Rng, len: u64) -> u64 {
    let border = rng.below(len / CHUNK + 2) * CHUNK;
    let middle = rng.below(len + 2);
    let place = rng.pick(&[border, len, middle]);
    (place + rng.below(70)).saturating_sub(35)
}
