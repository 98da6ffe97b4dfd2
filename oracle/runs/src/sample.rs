//! Chooses a fixed list of recordings that together reach everything.

use crate::coverage::{observe, Coverage, Feature};
use crate::generate;
use crate::recording::frame;
use crate::rules::Rules;
use crate::store::Place;
use std::fs;
use std::rc::Rc;

/// How often each feature is wanted.
const WANTED: u64 = 3;
/// Recordings to choose from.
const CANDIDATES: u64 = 100_000;
/// The longest recording and trace taken, so that the list stays small.
const MAX_BYTES: usize = 1_000;
const MAX_TRACE: usize = 4_000;

/// The recordings and the oracle's traces that a sample has.
pub struct Sample {
    pub recordings: Vec<Vec<u8>>,
    pub lines: Vec<String>,
    pub missing: Vec<Feature>,
}

/// Takes each recording of a seed that reaches something not yet reached often enough.
pub fn choose(seed: u64, place: &Rc<Place>) -> Sample {
    let rules = Rc::new(Rules::all());
    let (mut taken, mut seen) = (Coverage::default(), Coverage::default());
    let mut sample = Sample {
        recordings: Vec::new(),
        lines: Vec::new(),
        missing: Vec::new(),
    };
    for index in 0..CANDIDATES {
        let bytes = generate::recording(seed, index);
        let observed = observe(&bytes, place, &rules);
        seen.add(&observed.reached);
        let trace_len: usize = observed.trace.iter().map(String::len).sum();
        let is_small = bytes.len() <= MAX_BYTES && trace_len <= MAX_TRACE;
        if is_small
            && observed
                .reached
                .keys()
                .any(|feature| taken.get(feature) < WANTED)
        {
            taken.add(&observed.reached);
            sample.recordings.push(bytes);
            sample.lines.extend(observed.trace);
        }
    }
    let few = |feature: &Feature| taken.get(feature) < WANTED.min(seen.get(feature));
    sample.missing = seen.features().into_iter().filter(few).collect();
    sample
}

impl Sample {
    /// Writes the framed recordings and the expected lines.
    pub fn write(&self, input: &str, expected: &str) -> std::io::Result<()> {
        fs::write(input, frame(&self.recordings))?;
        fs::write(expected, self.lines.join("\n") + "\n")
    }
}
