//! W1 to W10 of document 01, on the original under the rules and on the model.

use crate::compare::model_trace;
use crate::coverage::observe;
use crate::driver::watch_panics;
use crate::recording::{Config, Record, Recording, Remote};
use crate::rules::Rules;
use crate::store::Place;
use crate::trace::unhex;
use std::rc::Rc;

const METADATA: &str = "24000A0001050207400000000501610162";
const SEGMENT: &str = "34000900010502000000000102030405";
const EOF: &str = "24000A0001050204000602030400000005";
const EOF_SUM_0: &str = "24000A0001050204000000000000000005";
const EMPTY_EOF: &str = "24000A0001050204000000000000000000";
const FINISHED: &str = "pdu 2c0002000105020502";
const LIMIT_REACHED: &str = "pdu 2c00050001050205a6060102";

/// A recording of 01's configuration with this limit: PDUs in hex, and `poll` for a poll with the timer flag.
fn recording(limit: u32, calls: &[&str]) -> Vec<u8> {
    let record = |call: &&str| Record {
        timer: *call == "poll",
        pdu: Some(*call)
            .filter(|call| *call != "poll")
            .map(|pdu| unhex(pdu).unwrap()),
    };
    let remotes = vec![Remote {
        id: 1,
        limit,
        discard: false,
    }];
    let config = Config {
        local_width: 1,
        local_id: 2,
        store_len: 16,
        handlers: [1, 1, 1, 1, 3, 1, 1, 1, 1, 3],
        segment_indication: false,
        eof_indication: false,
        remotes,
    };
    Recording {
        config,
        records: calls.iter().map(record).collect(),
        bad: None,
    }
    .write()
}

/// The trace without indications, by the oracle; the model's must be the same.
fn run(limit: u32, calls: &[&str]) -> Vec<String> {
    watch_panics();
    thread_local!(static PLACE: Rc<Place> = Rc::new(Place::new().unwrap()));
    let bytes = recording(limit, calls);
    let oracle = PLACE.with(|place| observe(&bytes, place, &Rc::new(Rules::all())).trace);
    assert_eq!(oracle, model_trace(&bytes, 0));
    let shown = |line: &String| {
        ["pdu", "file", "tally"]
            .iter()
            .any(|word| line.starts_with(word))
            || line.starts_with(|digit: char| digit.is_ascii_digit())
    };
    oracle.into_iter().filter(shown).collect()
}

/// The lines of the last call and the tally.
fn last(limit: u32, calls: &[&str], expected: &[&str]) {
    let trace = run(limit, calls);
    assert_eq!(trace[trace.len() - expected.len()..], *expected);
}

/// Places are named by process, so the vectors run in one test.
#[test]
fn w1_to_w10() {
    last(
        2,
        &[METADATA, SEGMENT, EOF],
        &["3 0 1", FINISHED, "file 0102030405", "tally 3 0 5"],
    );
    let waits = [METADATA, SEGMENT, EOF_SUM_0, "poll", "poll"];
    for (limit, calls) in [(1, 4), (0, 4), (2, 5)] {
        let number = format!("{calls} 0 1");
        let tally = format!("tally {calls} 0 5");
        last(
            limit,
            &waits[..calls],
            &[&number, LIMIT_REACHED, "file 0102030405", &tally],
        );
    }
    last(
        2,
        &[METADATA, EMPTY_EOF],
        &["2 0 1", FINISHED, "file ", "tally 2 0 0"],
    );
    let words = [
        "340008000105020000000001020304",
        "340008000105020000000405060708",
    ];
    let eof = "24000A00010502040006080A0C00000008";
    for order in [[0, 1], [1, 0]] {
        let calls = [METADATA, words[order[0]], words[order[1]], eof];
        last(
            2,
            &calls,
            &["4 0 1", FINISHED, "file 0102030405060708", "tally 4 0 8"],
        );
    }
    let wrapped = "34000C0001050200000000FFFFFFFF00000001";
    let eof = "24000A0001050204000000000000000008";
    last(
        2,
        &[METADATA, wrapped, eof],
        &["3 0 1", FINISHED, "file ffffffff00000001", "tally 3 0 8"],
    );
    let at_11 = "340009000105020000000B0102030405";
    let at_12 = "340009000105020000000C0102030405";
    last(
        2,
        &[METADATA, at_11],
        &[
            "2 0 0",
            "file 00000000000000000000000102030405",
            "tally 2 0 5",
        ],
    );
    last(2, &[METADATA, at_12], &["2 19 0", "file ", "tally 1 1 0"]);
    let at_3 = "3400050001050200000003AA";
    last(
        2,
        &[METADATA, at_3],
        &["2 0 0", "file 000000aa", "tally 2 0 1"],
    );
    let foreign = "34000900010602000000000102030405";
    last(2, &[METADATA, foreign], &["2 13 0", "file ", "tally 1 1 0"]);
}
