//! What a laps program reads (bench/README.md, 'Laps').

use crate::pdu::number;
use crate::recording::{record, settings};

/// How often the lap is run, the recording's header, the records before the lap, and those of the lap.
pub struct Laps<'a> {
    pub n: u64,
    pub header: &'a [u8],
    pub first: &'a [u8],
    pub lap: &'a [u8],
}

/// Reads the input of a laps program. Nothing where the recording is not whole, or has fewer records than the lap.
pub fn read(input: &[u8]) -> Option<Laps> {
    let n = number(input.get(..4)?);
    let k = usize::from(*input.get(4)?);
    let (header, records) = input[5..].split_at(settings(&input[5..])?.len);
    let mut places = vec![0];
    let mut at = 0;
    while at < records.len() {
        at += record(&records[at..])?.len;
        places.push(at);
    }
    let (first, lap) = records.split_at(places[places.len().checked_sub(1 + k)?]);
    Some(Laps {
        n,
        header,
        first,
        lap,
    })
}
