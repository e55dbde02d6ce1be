//! Captures of up to sixteen digital lines: recorded through a trigger, searched and drawn by hops over summaries.
//!
//! The work is done by the proved library `logic_core`: each of its calls ends on any input, stays in the memory
//! that it is lent, and answers what its contract says. This crate lends it memory of the right size, keeps the
//! record of each capture to itself so that nobody can hand in a wrong one, and turns its codes into [`Option`]s
//! and [`Refusal`]s.
//!
//! A [`Capture`] holds samples and answers questions about them. A [`Recorder`] fills one: it waits for a trigger,
//! keeps samples from before it, and stops at a limit.
//!
//! ```
//! use capture::{Condition, Recorder, Settings, Wish};
//!
//! // Eight lines, room for 1000 samples; four are wanted, half of them from before line 0 rises.
//! let settings = Settings::new(8, 1000)
//!     .limit(4)
//!     .term(0, Condition::Rising)
//!     .pretrigger(Wish::Fraction(0.5));
//! let mut recorder = Recorder::start(&settings)?;
//! recorder.push(&[0, 0])?;
//! recorder.push(&[0, 1, 1])?;
//!
//! let capture = recorder.into_capture();
//! assert_eq!(capture.samples(0, 4), [0, 0, 1, 1]);
//! assert_eq!(capture.mark(), Some(2));
//! assert_eq!(capture.next_change(0b1, 0).found, Some(2));
//! # Ok::<(), capture::Refusal>(())
//! ```
//!
//! Places count samples from 0. A mask has bit k for line k. Searches say beside what they found how many nodes they read
//! ([`Counted`]). [`Capture::bursts`] lists the bursts of a capture, [`Capture::density`] says how many changes a stretch has,
//! and [`Capture::encoder`] how far an encoder has turned.
//!
//! [`Capture::write`] gives a capture's file, and [`Capture::read`] the capture again, mark and all. [`Capture::salvage`] reads
//! what is good of a damaged one, and says which samples are unknown; [`Capture::next_certain`] and
//! [`Capture::next_possible`] search across these.
//!
//! [`Capture::mill`] gives a [`Mill`], a reader that sees some lines only and counts places from the mark.
//!
//! Pixels and the samples kept before a trigger are computed in the default floating-point mode, whatever mode the thread
//! is in.

#![deny(unsafe_code, missing_docs)]

mod answers;
#[allow(unsafe_code)]
mod boundary;
mod bursts;
mod capture;
mod changes;
mod fault;
mod file;
mod memory;
mod mill;
#[allow(unsafe_code)]
mod mode;
mod recorder;
mod refusal;
mod salvage;
mod settings;
mod unknown;

pub use answers::{
    Burst, Counted, Encoder, Extent, ListedBurst, MillNode, Node, Pixel, View, WrongNode,
};
pub use bursts::Bursts;
pub use capture::Capture;
pub use changes::Changes;
pub use fault::{Fault, Wrong};
pub use file::{ReadError, Said, BLOCK};
pub use memory::Needs;
pub use mill::Mill;
pub use recorder::{Pushed, Recorder};
pub use refusal::Refusal;
pub use salvage::{Salvaged, Stretch};
pub use settings::{Condition, Settings, Term, Wish};

/// Sixteen lines as bits, bit k for line k: a sample, or a mask of chosen lines.
pub type Lines = u16;

/// The most samples that a capture can hold.
pub const MOST_SAMPLES: usize = 67_108_864;

/// The most pixels that [`Capture::render`] draws at once.
pub const MOST_PIXELS: usize = 65_536;

/// The samples of a chunk, the stretch of a capture that [`Capture::raw`] gives.
pub const CHUNK: usize = 1_048_576;

/// The guide's examples, run as tests of this crate.
#[cfg(doctest)]
#[doc = include_str!("../../../docs/GUIDE.md")]
struct Guide;
