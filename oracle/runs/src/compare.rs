//! Holds another receiver's traces against the oracle's and the model's.

use crate::coverage::{observe, Coverage};
use crate::model::Model;
use crate::recording::{frame, Recording};
use crate::rules::{Rule, Rules};
use crate::shrink::shrink;
use crate::store::Place;
use crate::trace::{hex, replay, trace};
use std::io::{Read, Write};
use std::process::{Command, Stdio};
use std::rc::Rc;

/// Recordings that the other program is given at once.
const BATCH: usize = 500;
/// Differences that are shown in full.
const SHOWN: u64 = 3;

/// The receiver that is held against the oracle.
pub enum Ours {
    /// A program that reads framed recordings and prints their traces.
    Program(String),
    /// The model, with a fault or (0) without.
    Model(u8),
}

/// A recording's trace by the model.
pub fn model_trace(bytes: &[u8], fault: u8) -> Vec<String> {
    trace(Recording::read(bytes).as_ref(), |recording| {
        replay(recording, &mut Model::new(&recording.config, fault))
    })
}

/// Runs a program over framed recordings.
fn run_program(program: &str, input: Vec<u8>) -> Result<String, String> {
    let mut child = Command::new(program)
        .stdin(Stdio::piped())
        .stdout(Stdio::piped())
        .spawn()
        .map_err(|e| format!("{program}: {e}"))?;
    let mut stdin = child.stdin.take().expect("piped");
    let writer = std::thread::spawn(move || stdin.write_all(&input));
    let mut output = Vec::new();
    let mut stdout = child.stdout.take().expect("piped");
    stdout.read_to_end(&mut output).map_err(|e| e.to_string())?;
    let written = writer.join().expect("the writer does not panic");
    let status = child.wait().map_err(|e| e.to_string())?;
    if !status.success() || written.is_err() {
        return Err(format!("{program} ended early: {status}"));
    }
    String::from_utf8(output).map_err(|e| e.to_string())
}

/// Takes the output for several recordings apart, at the tallies.
fn split_traces(output: &str, count: usize) -> Result<Vec<Vec<String>>, String> {
    let mut traces = vec![Vec::new()];
    for line in output.lines() {
        traces
            .last_mut()
            .expect("never empty")
            .push(line.to_string());
        if line.starts_with("tally ") {
            traces.push(Vec::new());
        }
    }
    let rest = traces.pop().expect("never empty");
    if traces.len() != count || !rest.is_empty() {
        return Err(format!("{} traces for {count} recordings", traces.len()));
    }
    Ok(traces)
}

impl Ours {
    /// The traces of some recordings.
    fn traces(&self, recordings: &[Vec<u8>]) -> Result<Vec<Vec<String>>, String> {
        match self {
            Self::Program(program) => {
                split_traces(&run_program(program, frame(recordings))?, recordings.len())
            }
            Self::Model(fault) => Ok(recordings
                .iter()
                .map(|bytes| model_trace(bytes, *fault))
                .collect()),
        }
    }

    /// The trace of one recording; an error in place of it where there is none.
    fn trace(&self, bytes: &[u8]) -> Vec<String> {
        match self.traces(&[bytes.to_vec()]) {
            Ok(mut traces) => traces.remove(0),
            Err(error) => vec![error],
        }
    }
}

/// A trace from a little before a line on.
fn show(name: &str, trace: &[String], from: usize) {
    println!("  {name}:");
    for line in trace.iter().skip(from.saturating_sub(4)).take(10) {
        println!("    {}", line.chars().take(200).collect::<String>());
    }
}

/// What is compared, with what, and how.
pub struct Setting<'a> {
    pub ours: &'a Ours,
    /// The recording of an index, up to a count.
    pub recording: &'a dyn Fn(u64) -> Vec<u8>,
    pub count: u64,
    pub rules: Rc<Rules>,
    pub place: &'a Rc<Place>,
    /// Whether differences are shown and the run goes on; else it ends at the first.
    pub verbose: bool,
}

/// What a comparison found.
#[derive(Default)]
pub struct Comparison {
    pub compared: u64,
    pub differences: u64,
    /// The first difference's index, and its recording made smaller.
    pub first: Option<(u64, Vec<u8>)>,
    pub coverage: Coverage,
}

impl Setting<'_> {
    /// The trace that ours should have been, where it is another: the oracle's, or else the model's.
    fn expected(&self, bytes: &[u8], ours: &[String], oracle: Vec<String>) -> Option<Vec<String>> {
        let model = || match self.ours {
            Ours::Program(_) => model_trace(bytes, 0),
            Ours::Model(_) => ours.to_vec(),
        };
        Some(oracle)
            .filter(|oracle| oracle != ours)
            .or_else(|| Some(model()).filter(|model| model != ours))
    }

    /// Ours and what it should have been for one recording, leaving the counts of the rules as they are.
    fn difference(&self, bytes: &[u8]) -> Option<(Vec<String>, Vec<String>)> {
        let ours = self.ours.trace(bytes);
        let uses = self.rules.all_uses();
        let oracle = observe(bytes, self.place, &self.rules).trace;
        self.rules.set_uses(&uses);
        let expected = self.expected(bytes, &ours, oracle)?;
        Some((ours, expected))
    }

    /// Shows a recording and the place where its traces differ.
    fn report(&self, title: &str, bytes: &[u8]) {
        println!("{title}\n  recording {}", hex(bytes));
        if let Some((ours, expected)) = self.difference(bytes) {
            let from = ours
                .iter()
                .zip(&expected)
                .take_while(|(a, b)| a == b)
                .count();
            show("ours", &ours, from);
            show("expected", &expected, from);
        }
    }

    /// Compares one recording with its trace by ours.
    fn compare_one(&self, index: u64, bytes: &[u8], ours: &[String], result: &mut Comparison) {
        let observed = observe(bytes, self.place, &self.rules);
        result.coverage.add(&observed.reached);
        result.compared += 1;
        if self.expected(bytes, ours, observed.trace).is_none() {
            return;
        }
        result.differences += 1;
        if self.verbose && result.differences <= SHOWN {
            self.report(&format!("index {index}: unexplained"), bytes);
        }
        if result.first.is_none() {
            let small = shrink(bytes, |bytes| self.difference(bytes).is_some());
            if self.verbose {
                self.report("  made smaller:", &small);
            }
            result.first = Some((index, small));
        }
    }

    /// Compares all recordings of the seed, or those up to the first difference.
    pub fn compare(&self) -> Comparison {
        let mut result = Comparison::default();
        for from in (0..self.count).step_by(BATCH) {
            let indexes = from..self.count.min(from + BATCH as u64);
            let recordings: Vec<Vec<u8>> = indexes.clone().map(self.recording).collect();
            // A program that ends early is run again for each recording alone, so that the one at fault shows.
            let each = |_| {
                recordings
                    .iter()
                    .map(|bytes| self.ours.trace(bytes))
                    .collect()
            };
            let traces = self.ours.traces(&recordings).unwrap_or_else(each);
            for (index, (bytes, ours)) in indexes.zip(recordings.iter().zip(&traces)) {
                self.compare_one(index, bytes, ours, &mut result);
                if result.differences > 0 && !self.verbose {
                    return result;
                }
            }
        }
        result
    }
}

/// Prints coverage, rules with their uses, and the line that counts.
pub fn print(result: &Comparison, rules: &Rules) {
    println!("reached, by the oracle's count of calls:");
    result.coverage.print();
    println!("rules, by uses:");
    for rule in Rule::ALL {
        println!("{:>9}  {}: {}", rules.uses(*rule), rule.name(), rule.text());
    }
    println!(
        "{} recordings compared, {} unexplained differences",
        result.compared, result.differences
    );
}
