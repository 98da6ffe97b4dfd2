//! Runs the programs in turn over the same calls, takes the best time of each, and prints one table.
//!
//! FOLDER is for the recordings, and is where the programs are run. OURS has this repository's programs `rxt` and, if it is there,
//! `laps`; the Rust programs stand beside this one.

mod measure;
mod program;
mod recordings;

use measure::{LapRow, ReplayRow, Three};
use program::{Fallible, Program};
use recordings::{commas, Lap};
use std::ffi::OsString;
use std::path::{Path, PathBuf};
use std::time::{Duration, Instant};

const USE: &str = "use: driver ROUNDS RUN_MS FOLDER OURS";

/// What the program was called with: rounds, how long a run with laps is to take, the folder, and the programs.
struct Bench {
    rounds: u32,
    run: Duration,
    folder: PathBuf,
    laps: Three<Program>,
    rxt: Three<Program>,
}

impl Bench {
    /// Reads the words.
    fn new(words: &[OsString]) -> Fallible<Self> {
        let number = |i: usize| -> Option<u32> { words.get(i)?.to_str()?.parse().ok() };
        let (rounds, run_ms) = match (words.len(), number(0), number(1)) {
            (4, Some(rounds), Some(run_ms)) if rounds > 0 && run_ms > 0 => (rounds, run_ms),
            _ => return Err(USE.to_string()),
        };
        let folder = PathBuf::from(&words[2]);
        let own = std::env::current_exe().map_err(|e| e.to_string())?;
        let program = |path: PathBuf| {
            Some(Program {
                path,
                folder: folder.clone(),
            })
        };
        let rust = |name: &str| program(own.with_file_name(name));
        let ours = |name: &str| {
            let path = Path::new(&words[3]).join(name);
            program(path).filter(|it| it.path.exists())
        };
        Ok(Self {
            rounds,
            run: Duration::from_millis(run_ms.into()),
            laps: [ours("laps"), rust("satrs-laps"), rust("plain-laps")],
            rxt: [ours("rxt"), None, rust("plain-rxt")],
            folder: folder.clone(),
        })
    }

    /// Prepares a group of rows.
    fn lap_rows(&self, group: &str, laps: &[Lap]) -> Fallible<Vec<LapRow>> {
        laps.iter()
            .map(|lap| LapRow::new(&self.laps, &self.folder, group, lap, self.run))
            .collect()
    }
}

/// Prints a heading within the table.
fn heading(text: &str) {
    println!("| **{}** | | | | | |", text);
}

/// Prints a row: times, and ratios of ours to the others.
fn print(name: &str, times: Three<f64>, unit: &str) {
    let shown = |time: f64| {
        if time < 100.0 {
            return format!("{:.1} {}", time, unit);
        }
        format!("{} {}", commas(time.round() as u64), unit)
    };
    let [ours, satrs, plain] = times;
    let ratio = |other: Option<f64>| Some(format!("{:.2}", ours? / other?));
    let [ours, satrs, plain, to_satrs, to_plain] = [
        ours.map(shown),
        satrs.map(shown),
        plain.map(shown),
        ratio(satrs),
        ratio(plain),
    ]
    .map(Option::unwrap_or_default);
    println!(
        "| {} | {} | {} | {} | {} | {} |",
        name, ours, satrs, plain, to_satrs, to_plain
    );
}

/// Measures, and prints the table.
fn run() -> Fallible<()> {
    let words: Vec<OsString> = std::env::args_os().skip(1).collect();
    let bench = Bench::new(&words)?;
    let mut one_call = bench.lap_rows("one call", &recordings::one_call())?;
    let mut growth = bench.lap_rows("growth", &recordings::growth())?;
    let mut replays = Vec::new();
    for replay in recordings::replays() {
        replays.push(ReplayRow::new(&bench.rxt, &bench.folder, &replay)?);
    }
    for round in 1..=bench.rounds {
        let began = Instant::now();
        for row in one_call.iter_mut().chain(&mut growth) {
            row.round(&bench.laps)?;
        }
        for row in &mut replays {
            row.round(&bench.rxt)?;
        }
        if round == 1 {
            let took = began.elapsed().as_secs_f64();
            eprintln!("bench: {} rounds of about {:.0} s", bench.rounds, took);
        }
    }
    println!("| | ours | satrs | plain Rust | ours/satrs | ours/plain |");
    println!("|---|---|---|---|---|---|");
    heading("one call");
    for row in &one_call {
        print(&row.name, row.times(), "ns");
    }
    heading("how it grows");
    for row in &growth {
        print(&row.name, row.times(), "ns");
    }
    heading("recordings (`rxt`, `plain-rxt`)");
    for row in &replays {
        print(&row.name, row.times(), "ms");
    }
    Ok(())
}

fn main() {
    if let Err(text) = run() {
        eprintln!("bench: {}", text);
        std::process::exit(1);
    }
}
