//! Commands around the oracle; `README.md` has the scripts that call them.

mod compare;
mod coverage;
mod driver;
mod generate;
mod model;
mod oracle;
mod random;
mod recording;
mod rules;
mod sample;
mod short;
mod shrink;
mod store;
mod trace;
#[cfg(test)]
mod vectors;

use compare::{model_trace, Ours, Setting};
use rules::{Rule, Rules};
use short::Short;
use std::io::Read;
use std::path::Path;
use std::process::ExitCode;
use std::rc::Rc;
use store::Place;

const USE: &str = "use: runs compare N SEED PROGRAM [RULE]   PROGRAM against the oracle, without RULE if named
     runs compare N SEED model [RULE]     the model against the oracle
     runs short PROGRAM                   all short recordings; PROGRAM may be model
     runs faults N SEED                   plants each fault in the model and finds it
     runs rules N SEED                    takes each rule away and finds the difference
     runs trace WHO                       traces of framed recordings on standard input, WHO one of
                                          oracle (the original under the rules), original, model
     runs show HEX                        a recording's traces by the original and by the model
     runs sample SEED INPUT EXPECTED      chooses recordings and writes them with the oracle's traces";

/// A number among the arguments.
fn count(text: &str) -> Result<u64, String> {
    text.parse()
        .map_err(|_| format!("{text} is not a number\n{USE}"))
}

/// The rules without the one that is named, or all.
fn rules_without(name: Option<&&str>) -> Result<Rules, String> {
    match name {
        None => Ok(Rules::all()),
        Some(name) => match rules::named(name) {
            Some(rule) => Ok(Rules::without(rule)),
            None => {
                let names: Vec<&str> = Rule::ALL.iter().map(|rule| rule.name()).collect();
                Err(format!(
                    "{name} is not a rule; these are: {}",
                    names.join(", ")
                ))
            }
        },
    }
}

/// The receiver to compare: a program, or the model.
fn receiver(program: &str) -> Result<Ours, String> {
    match program {
        "model" => Ok(Ours::Model(0)),
        _ if Path::new(program).is_file() => Ok(Ours::Program(program.to_string())),
        _ => Err(format!("there is no program {program}")),
    }
}

/// Compares and prints; false where there is an unexplained difference.
fn run_setting(setting: &Setting) -> bool {
    let result = setting.compare();
    compare::print(&result, &setting.rules);
    result.differences == 0
}

/// Compares recordings of a seed.
fn run_compare(n: &str, seed: &str, program: &str, rule: Option<&&str>) -> Result<bool, String> {
    let seed = count(seed)?;
    Ok(run_setting(&Setting {
        ours: &receiver(program)?,
        recording: &|index| generate::recording(seed, index),
        count: count(n)?,
        rules: Rc::new(rules_without(rule)?),
        place: &Rc::new(Place::new()?),
        verbose: true,
    }))
}

/// Compares all short recordings.
fn run_short(program: &str) -> Result<bool, String> {
    let short = Short::new();
    Ok(run_setting(&Setting {
        ours: &receiver(program)?,
        recording: &|index| short.recording(index),
        count: short.count(),
        rules: Rc::new(Rules::all()),
        place: &Rc::new(Place::new()?),
        verbose: true,
    }))
}

/// Something that the comparison must find: its name, the receiver and the rules.
type Case = (String, Ours, Rules);

/// Compares in each case and says after how many recordings the difference was found.
fn find_each(n: &str, seed: &str, cases: impl Iterator<Item = Case>) -> Result<bool, String> {
    let place = Rc::new(Place::new()?);
    let seed = count(seed)?;
    let mut all_found = true;
    for (name, ours, rules) in cases {
        let setting = Setting {
            ours: &ours,
            recording: &|index| generate::recording(seed, index),
            count: count(n)?,
            rules: Rc::new(rules),
            place: &place,
            verbose: false,
        };
        match setting.compare().first {
            Some((index, small)) => {
                println!("found after {:>6} recordings: {name}", index + 1);
                println!("  {}", trace::hex(&small));
            }
            None => {
                all_found = false;
                println!("NOT found in {n} recordings: {name}");
            }
        }
    }
    Ok(all_found)
}

/// Plants each fault in the model.
fn run_faults(n: &str, seed: &str) -> Result<bool, String> {
    let case = |(fault, text): (usize, &&str)| {
        (
            format!("{fault}. {text}"),
            Ours::Model(fault as u8),
            Rules::all(),
        )
    };
    find_each(n, seed, model::FAULTS.iter().enumerate().skip(1).map(case))
}

/// Takes each rule away.
fn run_rules(n: &str, seed: &str) -> Result<bool, String> {
    let case = |rule: &Rule| {
        let name = format!("{}: {}", rule.name(), rule.text());
        (name, Ours::Model(0), Rules::without(*rule))
    };
    find_each(n, seed, Rule::ALL.iter().map(case))
}

/// A recording's trace by the original, under some rules.
fn original_trace(bytes: &[u8], rules: Rules, place: &Rc<Place>) -> Vec<String> {
    coverage::observe(bytes, place, &Rc::new(rules)).trace
}

/// Prints the traces of framed recordings.
fn run_trace(who: &str) -> Result<bool, String> {
    let mut framed = Vec::new();
    std::io::stdin()
        .read_to_end(&mut framed)
        .map_err(|e| e.to_string())?;
    let recordings = recording::unframe(&framed).ok_or("a frame is cut off")?;
    let place = Rc::new(Place::new()?);
    for bytes in recordings {
        let lines = match who {
            "oracle" => original_trace(&bytes, Rules::all(), &place),
            "original" => original_trace(&bytes, Rules::none(), &place),
            "model" => model_trace(&bytes, 0),
            _ => return Err(USE.to_string()),
        };
        println!("{}", lines.join("\n"));
    }
    Ok(true)
}

/// Prints what the original and the model make of one recording.
fn run_show(hex: &str) -> Result<bool, String> {
    let bytes = trace::unhex(hex).ok_or("the recording is not in hex")?;
    let place = Rc::new(Place::new()?);
    println!(
        "satrs 0.2.1:\n{}",
        original_trace(&bytes, Rules::none(), &place).join("\n")
    );
    println!("\ndocument 01:\n{}", model_trace(&bytes, 0).join("\n"));
    Ok(true)
}

/// Writes a sample; false where something is reached too seldom.
fn run_sample(seed: &str, input: &str, expected: &str) -> Result<bool, String> {
    let sample = sample::choose(count(seed)?, &Rc::new(Place::new()?));
    sample
        .write(input, expected)
        .map_err(|e| format!("{input}, {expected}: {e}"))?;
    for feature in &sample.missing {
        println!("too seldom: {feature}");
    }
    println!(
        "{} recordings, {} lines",
        sample.recordings.len(),
        sample.lines.len()
    );
    Ok(sample.missing.is_empty())
}

/// Picks the command; status 1 is a difference, 2 a wrong use.
fn main() -> ExitCode {
    driver::watch_panics();
    let args: Vec<String> = std::env::args().skip(1).collect();
    let args: Vec<&str> = args.iter().map(String::as_str).collect();
    let done = match args.as_slice() {
        ["compare", n, seed, program] => run_compare(n, seed, program, None),
        ["compare", n, seed, program, rule] => run_compare(n, seed, program, Some(rule)),
        ["short", program] => run_short(program),
        ["faults", n, seed] => run_faults(n, seed),
        ["rules", n, seed] => run_rules(n, seed),
        ["trace", who] => run_trace(who),
        ["show", hex] => run_show(hex),
        ["sample", seed, input, expected] => run_sample(seed, input, expected),
        _ => Err(USE.to_string()),
    };
    match done {
        Ok(true) => ExitCode::SUCCESS,
        Ok(false) => ExitCode::FAILURE,
        Err(error) => {
            eprintln!("{error}");
            ExitCode::from(2)
        }
    }
}
