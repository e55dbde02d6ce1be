//! The numbers of a capture.

use super::Command;
use crate::args::Takes;
use crate::given::Given;
use crate::numbers;
use crate::reader::Reader;

pub const COMMAND: Command = Command {
    name: "info",
    about: "Prints a capture's numbers",
    help: include_str!("../help/info.txt"),
    options: &[("--rate", Takes::Value), ("--grant", Takes::Value)],
    reads: true,
    run: |args, out| {
        let given = Given::load("info", args)?;
        let asked = given.asked(args)?;
        // A mill gets no files.
        if let Reader::Service(_) = asked.reader {
            writeln!(out, "format {}", if args.flag("--unit") { "raw" } else { "shelf" })?;
        }
        numbers::print(&asked, out)
    },
};
