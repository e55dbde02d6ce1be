//! What a recorder is started with.

/// What a line has to do for a trigger to fire.
#[derive(Clone, Copy, Debug, PartialEq, Eq, Hash)]
pub enum Condition {
    /// 0 in the sample before, 1 in this one.
    Rising,
    /// 1 in the sample before, 0 in this one.
    Falling,
    /// Different from the sample before.
    Edge,
    /// 1 in this sample.
    High,
    /// 0 in this sample.
    Low,
}

/// A line and its condition. A trigger fires at the first sample at which all of its terms hold;
/// a line with both [`Rising`](Condition::Rising) and [`Falling`](Condition::Falling) counts as one with [`Edge`](Condition::Edge).
#[derive(Clone, Copy, Debug, PartialEq, Eq, Hash)]
pub struct Term {
    /// The line, 0 to 15.
    pub line: u8,
    /// What it has to do.
    pub condition: Condition,
}

impl Term {
    /// The term as the library reads it.
    fn bytes(self) -> [u8; 2] {
        let condition = match self.condition {
            Condition::Rising => 0,
            Condition::Falling => 1,
            Condition::Edge => 2,
            Condition::High => 3,
            Condition::Low => 4,
        };
        [self.line, condition]
    }
}

/// How much is to be kept from before the trigger.
#[derive(Clone, Copy, Debug, PartialEq)]
pub enum Wish {
    /// A fraction of the limit, 0 to 0.99; numbers outside count as the nearer of these. It needs a limit.
    Fraction(f64),
    /// Seconds, 0 to 1, at the rate; numbers outside count as the nearer of these. It needs that there is no limit.
    Seconds(f64),
}

/// What a [`Recorder`](crate::Recorder) is started with.
///
/// ```
/// use capture::{Condition, Recorder, Settings, Wish};
///
/// // 16 lines at a million samples a second, room for ten seconds;
/// // a tenth of a second from before line 3 falls while line 0 is high.
/// let settings = Settings::new(16, 10_000_000)
///     .term(3, Condition::Falling)
///     .term(0, Condition::High)
///     .rate(1_000_000)
///     .pretrigger(Wish::Seconds(0.1));
/// assert_eq!(Recorder::start(&settings)?.pretrigger(), 100_000);
/// # Ok::<(), capture::Refusal>(())
/// ```
#[derive(Clone, Debug)]
pub struct Settings {
    pub(crate) channels: usize,
    pub(crate) capacity: usize,
    pub(crate) limit: usize,
    pub(crate) terms: Vec<Term>,
    wish: Option<Wish>,
    pub(crate) rate: u64,
}

impl Settings {
    /// For so many channels and samples, without a trigger or a limit.
    pub fn new(channels: usize, capacity: usize) -> Settings {
        Settings { channels, capacity, limit: 0, terms: Vec::new(), wish: None, rate: 0 }
    }

    /// Stops after so many samples, those from before the trigger among them; 0 is no limit.
    pub fn limit(self, limit: usize) -> Settings {
        Settings { limit, ..self }
    }

    /// Adds a term to the trigger. Without any, the recorder stores samples from the first on.
    pub fn term(mut self, line: u8, condition: Condition) -> Settings {
        self.terms.push(Term { line, condition });
        self
    }

    /// Adds terms to the trigger.
    pub fn terms(mut self, terms: &[Term]) -> Settings {
        self.terms.extend_from_slice(terms);
        self
    }

    /// How much to keep from before the trigger; nothing if this is not set.
    pub fn pretrigger(self, wish: Wish) -> Settings {
        Settings { wish: Some(wish), ..self }
    }

    /// Samples a second, by which [`Wish::Seconds`] is counted.
    pub fn rate(self, rate: u64) -> Settings {
        Settings { rate, ..self }
    }

    /// The wish; where there is none, nothing, in the kind that the limit asks for.
    pub(crate) fn wish(&self) -> Wish {
        match (self.wish, self.limit) {
            (Some(wish), _) => wish,
            (None, 0) => Wish::Seconds(0.0),
            (None, _) => Wish::Fraction(0.0),
        }
    }

    /// The terms as the library reads them.
    pub(crate) fn term_bytes(&self) -> Vec<u8> {
        self.terms.iter().flat_map(|term| term.bytes()).collect()
    }
}
