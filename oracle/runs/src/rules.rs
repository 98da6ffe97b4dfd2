//! The rules that explain every difference between satrs 0.2.1 and document 01, each with a count of its uses.

use std::cell::Cell;

macro_rules! rules {
    ($($case:ident, $name:literal, $text:literal;)+) => {
        /// A named difference. Where it applies, `oracle.rs` says exactly what the answer becomes.
        #[derive(Debug, Clone, Copy, PartialEq, Eq)]
        pub enum Rule { $($case),+ }

        impl Rule {
            pub const ALL: &'static [Rule] = &[$(Rule::$case),+];

            /// The name that commands and reports use.
            pub fn name(self) -> &'static str {
                match self { $(Rule::$case => $name),+ }
            }

            /// What the Rust does, in a line.
            pub fn text(self) -> &'static str {
                match self { $(Rule::$case => $text),+ }
            }
        }
    };
}

rules! {
    Idle, "idle", "a call that finds or leaves the handler idle reaches todo!";
    Prompt, "prompt", "a Prompt reaches todo!";
    AckFinished, "ack-finished", "an ACK of Finished reaches todo!";
    AckCode, "ack-code", "the whole second byte of an ACK is taken as the acked code";
    AckShort, "ack-short", "an ACK of one byte: the byte after the data field is the code, or a panic";
    EofError, "eof-error", "an EOF with an error condition reaches todo!";
    Destination, "destination", "the destination id is not looked at";
    Transaction, "transaction", "file data and EOF of other transactions are taken";
    Acknowledged, "acknowledged", "an acknowledged Metadata is taken, and its EOF reaches todo!";
    EmptyNames, "empty-names", "a Metadata with both names empty is taken under the id of the last transfer";
    MessageToUser, "message-to-user", "a Message to User panics in copy_from_slice";
    StuckInStart, "stuck-in-start", "a name that is not UTF-8 leaves the handler busy in its start";
    KeptRecord, "kept-record", "progress and disposition outlive a transfer";
    Delivery, "delivery", "delivery stays incomplete on a matching sum and on an unsupported type";
    Discard, "discard", "fault 11 cancelled, with discard: the file is removed";
    FinishedCondition, "finished-condition", "the Finished PDU after fault 11 cancelled says condition 0";
    Type3, "type-3", "checksum type 3 is CRC-32/CKSUM";
    EmptySeek, "empty-seek", "an empty segment at 2^63 or above: its seek is refused, so fault 4";
}

/// The rules in force, and how often each was used.
pub struct Rules {
    on: Vec<bool>,
    uses: Vec<Cell<u64>>,
}

impl Rules {
    /// Rules for which `on` holds.
    fn filtered(on: impl Fn(Rule) -> bool) -> Self {
        Self {
            on: Rule::ALL.iter().map(|rule| on(*rule)).collect(),
            uses: Rule::ALL.iter().map(|_| Cell::new(0)).collect(),
        }
    }

    /// All rules in force.
    pub fn all() -> Self {
        Self::filtered(|_| true)
    }

    /// No rule in force: the original as it is.
    pub fn none() -> Self {
        Self::filtered(|_| false)
    }

    /// All rules but one.
    pub fn without(off: Rule) -> Self {
        Self::filtered(|rule| rule != off)
    }

    /// Whether a rule is in force.
    pub fn is_on(&self, rule: Rule) -> bool {
        self.on[rule as usize]
    }

    /// Whether a rule whose cause is there is in force; counts it.
    pub fn apply(&self, rule: Rule) -> bool {
        let uses = &self.uses[rule as usize];
        uses.set(uses.get() + u64::from(self.is_on(rule)));
        self.is_on(rule)
    }

    /// How often a rule was used.
    pub fn uses(&self, rule: Rule) -> u64 {
        self.uses[rule as usize].get()
    }

    /// The uses of all rules.
    pub fn all_uses(&self) -> Vec<u64> {
        self.uses.iter().map(Cell::get).collect()
    }

    /// Sets the uses back to what they were, after a replay.
    pub fn set_uses(&self, uses: &[u64]) {
        self.uses
            .iter()
            .zip(uses)
            .for_each(|(cell, count)| cell.set(*count));
    }
}

/// The rule of a name.
pub fn named(name: &str) -> Option<Rule> {
    Rule::ALL.iter().copied().find(|rule| rule.name() == name)
}
