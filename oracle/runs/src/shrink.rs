//! Makes a recording that shows a difference smaller while the difference stays.

use crate::oracle::directive;
use crate::recording::Recording;
use spacepackets::cfdp::pdu::file_data::FileDataPdu;
use spacepackets::cfdp::pdu::metadata::MetadataPduReader;
use spacepackets::cfdp::pdu::{FileDirectiveType, PduHeader};
use spacepackets::cfdp::{LargeFileFlag, PduType};
use spacepackets::util::UnsignedEnum;

/// A change that makes a recording smaller or plainer.
type Edit = Box<dyn Fn(&mut Recording)>;

/// The smallest recording that the edits below lead to.
pub fn shrink(bytes: &[u8], differs: impl Fn(&[u8]) -> bool) -> Vec<u8> {
    let mut best = match Recording::read(bytes) {
        Some(recording) if differs(&recording.write()) => recording,
        _ => return bytes.to_vec(),
    };
    loop {
        let before = best.clone();
        for edits in [
            plain_sums,
            fewer_records,
            plainer_config,
            plainer_records,
            plain_numbers,
        ] {
            let mut from = 0;
            while let Some(edit) = edits(&best).into_iter().nth(from) {
                let mut candidate = best.clone();
                edit(&mut candidate);
                if candidate != best && differs(&candidate.write()) {
                    best = candidate;
                } else {
                    from += 1;
                }
            }
        }
        if best == before {
            return best.write();
        }
    }
}

/// Without its last half or quarter, or without one of the records, from the last to the first.
fn fewer_records(recording: &Recording) -> Vec<Edit> {
    let len = recording.records.len();
    let mut edits: Vec<Edit> = Vec::new();
    for kept in [len / 2, len - len / 4] {
        edits.push(Box::new(move |recording| recording.records.truncate(kept)));
    }
    for place in (0..len).rev() {
        edits.push(Box::new(move |recording| {
            recording.records.remove(place);
        }));
    }
    edits
}

/// With each part of the header plain.
fn plainer_config(recording: &Recording) -> Vec<Edit> {
    let mut edits: Vec<Edit> = vec![
        Box::new(|recording| recording.config.segment_indication = false),
        Box::new(|recording| recording.config.eof_indication = false),
    ];
    for place in (0..recording.config.remotes.len()).rev() {
        edits.push(Box::new(move |recording| {
            recording.config.remotes.remove(place);
        }));
        edits.push(Box::new(move |recording| {
            recording.config.remotes[place].discard = false
        }));
        for limit in [0, 1, 2] {
            edits.push(Box::new(move |recording| {
                let remote = &mut recording.config.remotes[place];
                remote.limit = remote.limit.min(limit);
            }));
        }
    }
    for (place, default) in [1, 1, 1, 1, 3, 1, 1, 1, 1, 3].into_iter().enumerate() {
        edits.push(Box::new(move |recording| {
            recording.config.handlers[place] = default
        }));
    }
    for store_len in [0, 1, 2, 4, 8, 16, 32, 64] {
        edits.push(Box::new(move |recording| {
            recording.config.store_len = recording.config.store_len.min(store_len);
        }));
    }
    edits
}

/// Zeros in all segments, and the sum 0 in all EOFs, so that records can go and a sum still match.
fn plain_sums(_: &Recording) -> Vec<Edit> {
    vec![Box::new(|recording| {
        for pdu in recording
            .records
            .iter_mut()
            .filter_map(|record| record.pdu.as_mut())
        {
            let (header, header_len) = match PduHeader::from_bytes(pdu) {
                Ok(read) => read,
                Err(_) => continue,
            };
            let segment = FileDataPdu::from_bytes(pdu).map(|segment| segment.file_data().len());
            let end = header_len + header.pdu_datafield_len();
            if header.pdu_type() == PduType::FileData {
                pdu[end - segment.unwrap_or(0)..end].fill(0);
            } else if directive(pdu) == Some(FileDirectiveType::EofPdu) && header_len + 6 <= end {
                pdu[header_len + 2..header_len + 6].fill(0);
            }
        }
    })]
}

/// Plain numbers in place of ids and sequence numbers, the same for the same, in one byte.
fn plain_numbers(_: &Recording) -> Vec<Edit> {
    vec![Box::new(|recording| {
        let (mut ids, mut seqs) = (vec![recording.config.local_id], Vec::new());
        recording.config.local_width = 1;
        recording.config.local_id = 2;
        for remote in &mut recording.config.remotes {
            remote.id = renamed(&mut ids, remote.id, 2);
        }
        for pdu in recording
            .records
            .iter_mut()
            .filter_map(|record| record.pdu.as_mut())
        {
            if let Ok((header, header_len)) = PduHeader::from_bytes(pdu) {
                let conf = header.common_pdu_conf();
                let source = renamed(&mut ids, conf.source_id().value(), 2);
                let seq = renamed(&mut seqs, conf.transaction_seq_num.value(), 5);
                let dest = renamed(&mut ids, conf.dest_id().value(), 2);
                let byte_3 = pdu[3] & 0x08;
                pdu.splice(3..header_len, [byte_3, source as u8, seq as u8, dest as u8]);
            }
        }
    })]
}

/// The plain number for a value, counted from `first` in order of appearance, with 1 in place of 3.
fn renamed(known: &mut Vec<u64>, value: u64, first: u64) -> u64 {
    let place = known
        .iter()
        .position(|other| *other == value)
        .unwrap_or_else(|| {
            known.push(value);
            known.len() - 1
        });
    match first + place as u64 {
        3 => 1,
        number => number,
    }
}

/// With one record without its timer flag, or with a plainer PDU.
fn plainer_records(recording: &Recording) -> Vec<Edit> {
    let mut edits: Vec<Edit> = Vec::new();
    for (place, record) in recording.records.iter().enumerate() {
        edits.push(Box::new(move |recording| {
            recording.records[place].timer = false
        }));
        for plainer in record.pdu.as_deref().map_or(Vec::new(), plainer_pdus) {
            edits.push(Box::new(move |recording| {
                recording.records[place].pdu = Some(plainer.clone());
            }));
        }
    }
    edits
}

/// The PDU without what follows its data field, with a plainer data field, and with single bytes 0.
fn plainer_pdus(pdu: &[u8]) -> Vec<Vec<u8>> {
    let mut plainer = Vec::new();
    if let Ok((header, header_len)) = PduHeader::from_bytes(pdu) {
        let end = header_len + header.pdu_datafield_len();
        let field = &pdu[header_len..end];
        plainer.push(pdu[..end].to_vec());
        for new_field in plainer_fields(&header, field, pdu) {
            let mut changed = pdu[..header_len].to_vec();
            changed[1..3].copy_from_slice(&(new_field.len() as u16).to_be_bytes());
            changed.extend(new_field);
            plainer.push(changed.clone());
            // With sizes of four bytes, in case the field was made for them.
            changed[0] &= !1;
            plainer.push(changed.clone());
            changed[3] &= !8;
            plainer.push(changed);
        }
        for at in (header_len + 1..end.min(header_len + 64)).filter(|at| pdu[*at] > 1) {
            for byte in [0, 1] {
                let mut changed = pdu.to_vec();
                changed[at] = byte;
                plainer.push(changed);
            }
        }
    }
    plainer.extend((0..pdu.len().min(12)).map(|len| pdu[..len].to_vec()));
    plainer
}

/// Shorter and plainer data fields of the same kind.
fn plainer_fields(header: &PduHeader, field: &[u8], pdu: &[u8]) -> Vec<Vec<u8>> {
    let is_metadata = directive(pdu) == Some(FileDirectiveType::MetadataPdu);
    let mut fields = if header.pdu_type() == PduType::FileData {
        FileDataPdu::from_bytes(pdu).map_or(Vec::new(), |segment| plainer_segments(&segment))
    } else if let (true, Ok(metadata)) = (is_metadata, MetadataPduReader::from_bytes(pdu)) {
        plainer_metadata(field[1], &metadata)
    } else {
        plainer_directives(header, field)
    };
    fields.retain(|plain| plain.len() <= field.len());
    fields
}

/// With less data, at its offset or at 0.
fn plainer_segments(segment: &FileDataPdu) -> Vec<Vec<u8>> {
    let (offset, data) = (segment.offset(), segment.file_data());
    let field = |(offset, len): (u64, usize)| {
        let wide = offset >> 32 != 0;
        let mut field = offset.to_be_bytes()[if wide { 0 } else { 4 }..].to_vec();
        field.extend(&data[..len.min(data.len())]);
        field
    };
    let fewer = [
        (0, 0),
        (0, 1),
        (offset, 0),
        (offset, 1),
        (offset, data.len() / 2),
    ];
    fewer.into_iter().map(field).collect()
}

/// With plain names, size 0, and no options, an empty Message to User, or the options that it has.
fn plainer_metadata(flags: u8, metadata: &MetadataPduReader) -> Vec<Vec<u8>> {
    let source = metadata.src_file_name().value();
    let dest = metadata.dest_file_name().value();
    let (a, b) = (&b"a"[..], &b"b"[..]);
    let mut fields = Vec::new();
    for (source, dest) in [(a, b), (source, b), (a, dest), (b"", b""), (a, b"\xff")] {
        for options in [&[][..], &[2, 0], metadata.options()] {
            let mut field = vec![7, flags, 0, 0, 0, 0, source.len() as u8];
            field.extend(source);
            field.push(dest.len() as u8);
            field.extend(dest);
            field.extend(options);
            fields.push(field);
        }
    }
    fields
}

/// Cut off, and an EOF with a size of four bytes.
fn plainer_directives(header: &PduHeader, field: &[u8]) -> Vec<Vec<u8>> {
    let cut = |len| field[..len].to_vec();
    let mut fields: Vec<Vec<u8>> = (1..field.len().min(12)).map(cut).collect();
    let large = header.common_pdu_conf().file_flag == LargeFileFlag::Large;
    if large && field.len() == 14 {
        fields.push([&field[..6], &field[10..]].concat());
    }
    fields
}
