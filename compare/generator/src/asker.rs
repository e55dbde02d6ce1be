//! Takes lines to both sides. Where the document refuses, the Rust isn't asked;
//! else the Rust's answer counts, and the document's only where the Rust has none.
//! The port, where it is asked too, must give the answer that counts.

use crate::document::Document;
use crate::op::Op;
use crate::port::Port;
use crate::rust::Rust;
use crate::side::{Answer, Side};

/// The first differences come with the lines that lead to them. Nobody is shown more, and there may be very many.
const TRACED: usize = 10;

pub struct Asker {
    document: Document,
    rust: Rust,
    port: Option<Port>,
    /// What the port said to the last line.
    ported: Option<Answer>,
    /// The lines since the last capture began.
    trace: Vec<String>,
    pub differences: Vec<String>,
    pub counts: Counts,
}

#[derive(Clone, Copy, Default)]
pub struct Counts {
    pub by_rust: u64,
    pub refused: u64,
    pub rust_has_none: u64,
    pub by_port: u64,
    /// Of these, questions of mills: answered by the Rust, refused, decided by the document alone.
    pub mill: [u64; 3],
}

impl Asker {
    pub fn new() -> Asker {
        Asker {
            document: Document::default(),
            rust: Rust::new(),
            port: None,
            ported: None,
            trace: Vec::new(),
            differences: Vec::new(),
            counts: Counts::default(),
        }
    }

    pub fn with_port() -> Asker {
        Asker { port: Some(Port::default()), ..Asker::new() }
    }

    pub fn checks_overflow(&mut self) -> bool {
        self.rust.checks_overflow()
    }

    /// What the document knows of the capture that is asked about.
    pub fn document(&self) -> &Document {
        &self.document
    }

    pub fn port(&self) -> Option<&Port> {
        self.port.as_ref()
    }

    pub fn ported(&self) -> Option<&Answer> {
        self.ported.as_ref()
    }

    /// Notes a difference beside those that asking finds.
    pub fn differs(&mut self, what: &str) {
        let traced = self.differences.len() < TRACED;
        let lines = if traced { self.trace.join("\n") } else { "..".into() };
        self.differences.push(format!("{lines}\n{what}"));
    }

    /// Asks the port alone, where other answers of its own are what decides. What else is wrong with the call is noted.
    pub fn ask_port(&mut self, op: &Op) -> Option<Answer> {
        let port = self.port.as_mut()?;
        let answer = port.take(op);
        for fault in port.faults() {
            self.differs(&format!("{}\n  port {answer:?}\n  {fault}", joined(&op.numbers())));
        }
        answer
    }

    /// The whole line: code, arguments, who decides, answer.
    pub fn ask(&mut self, op: &Op) -> String {
        let mut numbers = op.numbers();
        self.ported = self.port.as_mut().and_then(|port| port.take(op));
        let Some(ruled) = self.document.take(op) else {
            // A line that sets the scene sets the Rust's mark, too.
            self.rust.take(op);
            return self.noted(op, &numbers);
        };
        let refused = ruled.is_err() || self.document.refuses();
        let own = if refused { None } else { self.rust.take(op) };
        // It reads no files: what was read or salvaged is given to it.
        if let (Op::Read { .. } | Op::Salvage { .. }, Ok(_)) = (op, &ruled) {
            self.rust.hold(self.document.store(), self.document.samples());
        }
        self.count(op, own.is_some(), refused);
        let mut faults = self.port.as_mut().map_or(Vec::new(), Port::faults);
        if own.as_ref().is_some_and(|own| *own != ruled) {
            faults.push("the Rust differs".into());
        }
        if self.ported.as_ref().is_some_and(|ported| *ported != ruled) {
            faults.push("the port differs".into());
        }
        if !faults.is_empty() {
            let arguments = joined(&numbers);
            let (ported, faults) = (&self.ported, faults.join("; "));
            self.differs(&format!(
                "{arguments}\n  document {ruled:?}\n  Rust {own:?}\n  port {ported:?}\n  {faults}"
            ));
        }
        numbers.push(own.is_none() as u64);
        match own.unwrap_or(ruled) {
            Ok(values) => {
                numbers.push(0);
                numbers.extend(values);
            }
            Err(number) => numbers.push(number),
        }
        self.noted(op, &numbers)
    }

    fn count(&mut self, op: &Op, by_rust: bool, refused: bool) {
        let counts = &mut self.counts;
        let (count, kind) = match (by_rust, refused) {
            (true, _) => (&mut counts.by_rust, 0),
            (_, true) => (&mut counts.refused, 1),
            _ => (&mut counts.rust_has_none, 2),
        };
        *count += 1;
        counts.by_port += self.ported.is_some() as u64;
        if let Op::Mill(_) = op {
            counts.mill[kind] += 1;
        }
    }

    /// The line, noted in the trace.
    fn noted(&mut self, op: &Op, numbers: &[u64]) -> String {
        let line = joined(numbers);
        if op.begins() {
            self.trace.clear();
        }
        self.trace.push(line.clone());
        line
    }
}

pub fn joined(numbers: &[u64]) -> String {
    let texts: Vec<String> = numbers.iter().map(u64::to_string).collect();
    texts.join(" ")
}
