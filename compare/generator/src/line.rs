//! An operation as the numbers of a line, and back.

use crate::feed::Feed;
use crate::op::{
    Across, Ask, Burst, Lent, Mill, Op, Recorder, Settings, Store, Term, View, Wish, CONDITIONS,
    SEARCHES,
};

impl Op {
    /// Code and arguments.
    pub fn numbers(&self) -> Vec<u64> {
        match self {
            Op::Lend(lent) => {
                let [one, two, three, four] = lent.levels;
                vec![1, lent.samples, one, two, three, four, lent.ring]
            }
            Op::Record(s) => {
                let mark = s.mark.unwrap_or(0);
                vec![2, s.unit, s.capacity, s.len, s.mark.is_some() as u64, mark]
            }
            Op::Feeder(r) => vec![3, r.limit, r.pre, r.kept, r.place],
            Op::Put { level, index, value } => vec![4, *level, *index, *value as u64],
            Op::PutFile { at, byte } => vec![5, *at, *byte as u64],
            Op::Capture { channels, capacity } => vec![10, *channels, *capacity],
            Op::Append(feed) => feed_numbers(11, feed),
            Op::Run => vec![14],
            Op::Get(i) => vec![15, *i],
            Op::Samples { start, count, output } => vec![16, *start, *count, *output],
            Op::Raw(c) => vec![17, *c],
            Op::Whole => vec![18],
            Op::Next { mask, from } => vec![20, *mask as u64, *from],
            Op::Prev { mask, from } => vec![21, *mask as u64, *from],
            Op::Summary { a, b } => vec![22, *a, *b],
            Op::Density { a, b } => vec![23, *a, *b],
            Op::Encoder { a, b } => vec![24, *a, *b],
            Op::Across(across) => across_numbers(across),
            Op::Burst(b) => {
                vec![30, b.mask as u64, b.sample, b.max_gap, b.tolerance, b.budget]
            }
            Op::Render(view) => view_numbers(40, view),
            Op::RenderDigest(view) => view_numbers(41, view),
            Op::Pretrigger { time, rate, unit } => vec![50, time.to_bits(), *rate, *unit],
            Op::Start(settings) => start_numbers(settings),
            Op::Push(feed) => feed_numbers(52, feed),
            Op::State => vec![55],
            Op::Write { output } => vec![60, *output],
            Op::Read { capacity, count } => vec![61, *capacity, *count],
            Op::Says { count } => vec![62, *count],
            Op::FileLen => vec![63],
            Op::Salvage { capacity, count, list } => vec![64, *capacity, *count, *list],
            Op::Mill(mill) => mill_numbers(mill),
        }
    }

    /// Reads code and arguments, or none where they are no operation's.
    pub fn read(numbers: &mut Numbers) -> Option<Op> {
        let mut next = || numbers.next();
        Some(match next()? {
            1 => Op::Lend(Lent {
                samples: next()?,
                levels: [next()?, next()?, next()?, next()?],
                ring: next()?,
            }),
            2 => Op::Record(Store {
                unit: next()?,
                capacity: next()?,
                len: next()?,
                mark: match (next()?, next()?) {
                    (0, _) => None,
                    (_, mark) => Some(mark),
                },
            }),
            3 => {
                Op::Feeder(Recorder { limit: next()?, pre: next()?, kept: next()?, place: next()? })
            }
            4 => Op::Put { level: next()?, index: next()?, value: next()? as u16 },
            5 => Op::PutFile { at: next()?, byte: next()? as u8 },
            10 => Op::Capture { channels: next()?, capacity: next()? },
            code @ 11..=13 => Op::Append(read_feed(code - 11, numbers)?),
            14 => Op::Run,
            15 => Op::Get(next()?),
            16 => Op::Samples { start: next()?, count: next()?, output: next()? },
            17 => Op::Raw(next()?),
            18 => Op::Whole,
            20 => Op::Next { mask: next()? as u16, from: next()? },
            21 => Op::Prev { mask: next()? as u16, from: next()? },
            22 => Op::Summary { a: next()?, b: next()? },
            23 => Op::Density { a: next()?, b: next()? },
            24 => Op::Encoder { a: next()?, b: next()? },
            code @ 25..=28 => Op::Across(read_across(code - 25, numbers)?),
            30 => Op::Burst(Burst {
                mask: next()? as u16,
                sample: next()?,
                max_gap: next()?,
                tolerance: next()?,
                budget: next()?,
            }),
            40 => Op::Render(read_view(numbers)?),
            41 => Op::RenderDigest(read_view(numbers)?),
            50 => Op::Pretrigger { time: f64::from_bits(next()?), rate: next()?, unit: next()? },
            51 => Op::Start(read_start(numbers)?),
            code @ 52..=54 => Op::Push(read_feed(code - 52, numbers)?),
            55 => Op::State,
            60 => Op::Write { output: next()? },
            61 => Op::Read { capacity: next()?, count: next()? },
            62 => Op::Says { count: next()? },
            63 => Op::FileLen,
            64 => Op::Salvage { capacity: next()?, count: next()?, list: next()? },
            _ => return None,
        })
    }
}

/// For the traces of a difference: code, grant and arguments, negative places as 64 bits.
fn mill_numbers(Mill { grant, ask }: &Mill) -> Vec<u64> {
    let grant = *grant as u64;
    match *ask {
        Ask::Extent => vec![70],
        Ask::Get(place) => vec![71, grant, place as u64],
        Ask::Samples { start, count, output } => vec![72, grant, start as u64, count, output],
        Ask::Summary { a, b } => vec![73, grant, a as u64, b as u64],
        Ask::Next { mask, from } => vec![74, grant, mask as u64, from as u64],
        Ask::Prev { mask, from } => vec![75, grant, mask as u64, from as u64],
        Ask::Burst { mask, sample, max_gap, tolerance, budget } => {
            vec![76, grant, mask as u64, sample as u64, max_gap, tolerance, budget]
        }
        Ask::Render(view) => {
            let mut line = view_numbers(77, &view);
            line.insert(1, grant);
            line
        }
        Ask::Encoder { a, b } => vec![78, grant, a, b],
    }
}

fn across_numbers(across: &Across) -> Vec<u64> {
    let Across { sort, way, mask, from, stretches } = across;
    let kind = SEARCHES.iter().position(|search| *search == (*sort, *way));
    let code = 25 + kind.expect("it is one of the four") as u64;
    let mut line = vec![code, *mask as u64, *from, stretches.len() as u64];
    line.extend(stretches);
    line
}

fn read_across(kind: u64, numbers: &mut Numbers) -> Option<Across> {
    let (sort, way) = SEARCHES[kind as usize];
    let (mask, from, count) = (numbers.next()? as u16, numbers.next()?, numbers.next()?);
    let stretches = (0..count).map(|_| numbers.next()).collect::<Option<_>>()?;
    Some(Across { sort, way, mask, from, stretches })
}

fn feed_numbers(code: u64, feed: &Feed) -> Vec<u64> {
    match feed {
        Feed::Bytes(bytes) => {
            let mut line = vec![code, bytes.len() as u64];
            line.extend(bytes.iter().map(|&b| b as u64));
            line
        }
        Feed::Runs(runs) => {
            let mut line = vec![code + 1, runs.len() as u64];
            line.extend(runs.iter().flat_map(|&(count, value)| [count, value as u64]));
            line
        }
        Feed::Noise { count, seed, mask } => vec![code + 2, *count, *seed, *mask as u64],
    }
}

fn read_feed(kind: u64, numbers: &mut Numbers) -> Option<Feed> {
    let count = numbers.next()?;
    Some(match kind {
        0 => Feed::Bytes((0..count).map(|_| Some(numbers.next()? as u8)).collect::<Option<_>>()?),
        1 => {
            let run = |_| Some((numbers.next()?, numbers.next()? as u16));
            Feed::Runs((0..count).map(run).collect::<Option<_>>()?)
        }
        _ => Feed::Noise { count, seed: numbers.next()?, mask: numbers.next()? as u16 },
    })
}

fn view_numbers(code: u64, view: &View) -> Vec<u64> {
    vec![code, view.start.to_bits(), view.spp.to_bits(), view.width, view.output]
}

fn read_view(numbers: &mut Numbers) -> Option<View> {
    Some(View {
        start: f64::from_bits(numbers.next()?),
        spp: f64::from_bits(numbers.next()?),
        width: numbers.next()?,
        output: numbers.next()?,
    })
}

fn start_numbers(s: &Settings) -> Vec<u64> {
    let (kind, wish) = match s.wish {
        Wish::Fraction(p) => (0, p),
        Wish::Seconds(t) => (1, t),
    };
    let count = s.terms.len() as u64;
    let mut line = vec![51, s.channels, s.capacity, s.limit, kind, wish.to_bits(), s.rate, count];
    line.extend(s.terms.iter().flat_map(|t| [t.line as u64, t.condition as u64]));
    line
}

fn read_start(numbers: &mut Numbers) -> Option<Settings> {
    let (channels, capacity, limit) = (numbers.next()?, numbers.next()?, numbers.next()?);
    let wish = match (numbers.next()?, f64::from_bits(numbers.next()?)) {
        (0, p) => Wish::Fraction(p),
        (_, t) => Wish::Seconds(t),
    };
    let (rate, count) = (numbers.next()?, numbers.next()?);
    let mut term = |_| {
        let line = numbers.next()? as u8;
        let condition = *CONDITIONS.get(numbers.next()? as usize)?;
        Some(Term { line, condition })
    };
    let terms = (0..count).map(&mut term).collect::<Option<_>>()?;
    Some(Settings { channels, capacity, limit, wish, rate, terms })
}

/// The numbers of a line, one after the other.
pub struct Numbers<'a>(std::str::Split<'a, char>);

impl<'a> Numbers<'a> {
    pub fn new(line: &'a str) -> Numbers<'a> {
        Numbers(line.split(' '))
    }

    pub fn next(&mut self) -> Option<u64> {
        self.0.next()?.parse().ok()
    }
}
