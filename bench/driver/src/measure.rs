//! What is measured: laps of calls, and whole recordings, by programs that must agree before they are timed.

use crate::program::{Fallible, Program};
use crate::recordings::{Lap, Replay};
use std::fs;
use std::path::{Path, PathBuf};
use std::time::Duration;

/// Ours, satrs and plain Rust, as far as they are there.
pub type Three<T> = [Option<T>; 3];

/// Writes an input.
fn write(folder: &Path, name: &str, bytes: &[u8]) -> Fallible<PathBuf> {
    let path = folder.join(name);
    fs::write(&path, bytes).map_err(|e| format!("{}: {}", path.display(), e))?;
    Ok(path)
}

/// Writes the input of a laps program.
fn write_laps(folder: &Path, name: &str, lap: &Lap, laps: u32) -> Fallible<PathBuf> {
    let mut bytes = laps.to_be_bytes().to_vec();
    bytes.push(lap.calls);
    bytes.extend(&lap.recording);
    write(folder, name, &bytes)
}

/// The laps of one program: their number in a run, and the best times of a run with them and of a run with none.
struct Laps {
    number: u32,
    input: PathBuf,
    with: Duration,
    without: Duration,
}

/// A row of the table that is measured in laps.
pub struct LapRow {
    pub name: String,
    calls: u8,
    none: PathBuf,
    cells: Three<Laps>,
}

/// A row of the table that is measured over a whole recording.
pub struct ReplayRow {
    pub name: String,
    input: PathBuf,
    cells: Three<Duration>,
}

/// Whether the laps programs agree on the last answer and on what is left: ours and the plain one wholly, satrs but for its progress,
/// which it does not tell, and not where it is known to answer otherwise.
fn check_laps(programs: &Three<Program>, folder: &Path, lap: &Lap) -> Fallible<()> {
    let input = write_laps(folder, "check", lap, 3)?;
    let line = |program: &Option<Program>| -> Fallible<Option<Vec<String>>> {
        let printed = program.as_ref().map(|program| program.output(&input));
        let words = |line: String| line.trim_end().split(' ').map(str::to_string).collect();
        Ok(printed.transpose()?.map(words))
    };
    let [ours, satrs, plain] = programs;
    let (ours, mut satrs, plain) = (line(ours)?, line(satrs)?, line(plain)?);
    let right = plain
        .as_ref()
        .map_or(false, |line| line.len() == 5 && line[..2] == ["laps", "3"]);
    let progress = plain.as_ref().and_then(|line| line.get(3)).cloned();
    if let (Some(word), Some(progress)) =
        (satrs.as_mut().and_then(|line| line.get_mut(3)), progress)
    {
        *word = progress;
    }
    if right && (ours.is_none() || ours == plain) && (satrs != plain) == lap.satrs_differs {
        return Ok(());
    }
    let shown =
        |line: Option<Vec<String>>| line.map_or("nothing".to_string(), |line| line.join(" "));
    Err(format!(
        "{}: laps prints [{}], satrs-laps [{}] (progress apart), plain-laps [{}]",
        lap.name,
        shown(ours),
        shown(satrs),
        shown(plain)
    ))
}

impl Laps {
    /// Finds a number of laps that takes about as long as a run is to take.
    fn new(program: &Program, name: &str, lap: &Lap, none: &Path, run: Duration) -> Fallible<Self> {
        let without = program.time(none)?.min(program.time(none)?);
        let mut number = 64;
        loop {
            let input = write_laps(&program.folder, name, lap, number)?;
            // the better of two, since one that was held up would leave too few
            let with = program.time(&input)?.min(program.time(&input)?);
            let took = with.saturating_sub(without).as_secs_f64();
            if took >= run.as_secs_f64() / 2.0 || number > u32::MAX / 8 {
                return Ok(Self {
                    number,
                    input,
                    with,
                    without,
                });
            }
            number = (f64::from(number) * (run.as_secs_f64() / took).clamp(2.0, 8.0)) as u32;
        }
    }
}

impl LapRow {
    /// Checks that the programs agree, and prepares their laps; `group` keeps their files apart from those of other rows.
    pub fn new(
        programs: &Three<Program>,
        folder: &Path,
        group: &str,
        lap: &Lap,
        run: Duration,
    ) -> Fallible<Self> {
        check_laps(programs, folder, lap)?;
        let file = |name: &str| format!("{}, {}, {}", group, lap.name, name);
        let none = write_laps(folder, &file("none"), lap, 0)?;
        let mut cells = [None, None, None];
        for ((program, cell), name) in programs
            .iter()
            .zip(&mut cells)
            .zip(["ours", "satrs", "plain"])
        {
            if let Some(program) = program {
                *cell = Some(Laps::new(program, &file(name), lap, &none, run)?);
            }
        }
        Ok(Self {
            name: lap.name.clone(),
            calls: lap.calls,
            none,
            cells,
        })
    }

    /// Runs each program once with its laps and once with none.
    pub fn round(&mut self, programs: &Three<Program>) -> Fallible<()> {
        for (program, cell) in programs.iter().zip(&mut self.cells) {
            if let (Some(program), Some(laps)) = (program, cell) {
                laps.with = laps.with.min(program.time(&laps.input)?);
                laps.without = laps.without.min(program.time(&self.none)?);
            }
        }
        Ok(())
    }

    /// The time of a call, in nanoseconds.
    pub fn times(&self) -> Three<f64> {
        let time = |laps: &Laps| {
            let took = laps.with.saturating_sub(laps.without);
            took.as_secs_f64() * 1e9 / (f64::from(laps.number) * f64::from(self.calls))
        };
        let [ours, satrs, plain] = &self.cells;
        [
            ours.as_ref().map(time),
            satrs.as_ref().map(time),
            plain.as_ref().map(time),
        ]
    }
}

/// Whether the programs print the same of a recording.
fn check_replay(programs: &Three<Program>, name: &str, input: &Path) -> Fallible<()> {
    let mut outputs = Vec::new();
    for program in programs.iter().flatten() {
        outputs.push(program.output(input)?);
    }
    let (first, last) = (&outputs[0], &outputs[outputs.len() - 1]);
    if first == last {
        return Ok(());
    }
    let (ours, plain) = (first.lines().chain([""]), last.lines().chain([""]));
    let differ = (1..)
        .zip(ours.zip(plain))
        .find(|(_, (ours, plain))| ours != plain);
    let (number, (ours, plain)) = differ.unwrap_or((0, ("", "")));
    Err(format!(
        "{}: line {} of rxt is [{}], of plain-rxt [{}]",
        name, number, ours, plain
    ))
}

impl ReplayRow {
    /// Checks that the programs agree on a recording.
    pub fn new(programs: &Three<Program>, folder: &Path, replay: &Replay) -> Fallible<Self> {
        let input = write(folder, replay.name, &replay.recording)?;
        check_replay(programs, replay.name, &input)?;
        Ok(Self {
            name: replay.name.to_string(),
            input,
            cells: [None; 3],
        })
    }

    /// Runs each program once.
    pub fn round(&mut self, programs: &Three<Program>) -> Fallible<()> {
        for (program, cell) in programs.iter().zip(&mut self.cells) {
            if let Some(program) = program {
                let took = program.time(&self.input)?;
                *cell = Some(cell.map_or(took, |best| best.min(took)));
            }
        }
        Ok(())
    }

    /// The time of the whole, in milliseconds.
    pub fn times(&self) -> Three<f64> {
        self.cells
            .map(|cell| cell.map(|best| best.as_secs_f64() * 1e3))
    }
}
