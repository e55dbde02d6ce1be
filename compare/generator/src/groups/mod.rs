//! The groups of calls, one answer file each.

mod burst;
mod encoder;
pub mod file;
mod recorder;
pub mod refused;
pub mod render;
pub mod salvage;
mod search;
mod store;
pub mod unknown;

use crate::list::List;
use crate::shapes::Size;
use rng::Rng;

pub struct Group {
    pub name: &'static str,
    /// Writes the group's list.
    pub write: fn(&mut List, &mut Rng),
    /// Asks about one random capture of this size.
    pub random: fn(&mut List, &mut Rng, Size),
}

pub const GROUPS: [Group; 9] = [
    Group { name: "store", write: store::write, random: store::random },
    Group { name: "search", write: search::write, random: search::random },
    Group { name: "burst", write: burst::write, random: burst::random },
    Group { name: "render", write: render::write, random: render::random },
    Group { name: "recorder", write: recorder::write, random: recorder::random },
    Group { name: "encoder", write: encoder::write, random: encoder::random },
    Group { name: "file", write: file::write, random: file::random },
    Group { name: "salvage", write: salvage::write, random: salvage::random },
    Group { name: "unknown", write: unknown::write, random: unknown::random },
];

/// The captures of document 01's shelf examples.
const A: [u16; 8] = [0, 0, 1, 1, 0, 2, 2, 3];
const B: [u16; 10] = [0, 1, 0, 0, 0, 0, 0, 0, 1, 0];

/// No two ranges of these have the same first and toggles.
const ONE_HOT: [u16; 8] = [1, 2, 4, 8, 16, 32, 64, 128];
