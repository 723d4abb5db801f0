//! Damage to how a deck is written: records and single bytes.

use super::plan::RecordPlan;
use super::random::Random;

const MOST_BYTES: usize = 32_768;

/// Makes one thing of the records wrong: refusals 11 to 13 and what follows from them.
pub fn damage_records(random: &mut Random, records: &mut Vec<RecordPlan>) {
    let at = random.below(records.len());
    match random.below(11) {
        0 => records[at].kind = *random.pick(&[0, 1, 2, 3, 4, 5, 6, 256, 257, 65_535]),
        1 => {
            records[at].length = records[at].length.wrapping_add(*random.pick(&[1, 2, 6, 40, 65_535, 65_534, 65_530]));
        }
        2 => records[at].length = *random.pick(&[0, 1, 2, 5, 6, 36, 37, 32_767, 65_535]),
        3 => shorten(random, &mut records[at]),
        4 => lengthen(random, &mut records[at]),
        5 => change_count(random, &mut records[at]),
        6 => {
            let copy = records[at].clone();
            let to = random.below(records.len() + 1);
            records.insert(to, copy);
        }
        7 => {
            let moved = records.remove(at);
            let to = random.below(records.len() + 1);
            records.insert(to, moved);
        }
        8 if records.len() > 1 => {
            records.remove(at);
        }
        9 => records.insert(at, RecordPlan::new(random.below(7) as u16, vec![0; random.below(8)])),
        _ => huge_block(random, records),
    }
}

fn shorten(random: &mut Random, record: &mut RecordPlan) {
    let kept = random.below(record.payload.len() + 1);
    record.payload.truncate(kept);
    record.length = kept as u16;
}

fn lengthen(random: &mut Random, record: &mut RecordPlan) {
    for _ in 0..*random.pick(&[1, 2, 6]) {
        record.payload.push(random.draw() as u8);
    }
    record.length = record.payload.len() as u16;
}

/// The count of bonds or placements that the payload itself gives.
fn change_count(random: &mut Random, record: &mut RecordPlan) {
    let at = if record.kind == 1 { 4 } else { 0 };
    if record.payload.len() > at {
        record.payload[at] = record.payload[at].wrapping_add(*random.pick(&[1, 2, 128, 255]));
    }
}

/// A block record that takes the deck to 32,768 bytes or to just above, all its lengths in order.
fn huge_block(random: &mut Random, records: &mut Vec<RecordPlan>) {
    let before: usize = records.iter().map(|record| 4 + record.payload.len()).sum();
    let wanted = MOST_BYTES + random.below(4);
    let bonds = (wanted.saturating_sub(before + 10)) / 2;
    let mut payload = vec![200, 0, 5, 0];
    payload.extend_from_slice(&(bonds as u16).to_le_bytes());
    payload.resize(6 + 2 * bonds, 1);
    let at = random.below(records.len() + 1);
    records.insert(at, RecordPlan::new(1, payload));
}

/// Makes one thing of the bytes wrong.
pub fn damage_bytes(random: &mut Random, bytes: &mut Vec<u8>) {
    match random.below(8) {
        0 | 1 => {
            let kept = random.below(bytes.len() + 1);
            bytes.truncate(kept);
        }
        2 | 3 => flip(random, bytes, 1),
        4 => {
            let many = random.between(2, 8);
            flip(random, bytes, many);
        }
        5 => append(random, bytes),
        6 => {
            let extra = random.below(3);
            bytes.resize(MOST_BYTES + extra, 0);
        }
        _ => {
            let extra = random.between(1, 9_000);
            bytes.resize(MOST_BYTES + extra, 1);
        }
    }
}

fn flip(random: &mut Random, bytes: &mut [u8], times: usize) {
    for _ in 0..times {
        if !bytes.is_empty() {
            let at = random.below(bytes.len());
            bytes[at] = if random.once_in(2) { random.draw() as u8 } else { bytes[at] ^ 1 << random.below(8) };
        }
    }
}

fn append(random: &mut Random, bytes: &mut Vec<u8>) {
    for _ in 0..*random.pick(&[1, 2, 3, 4, 5, 40, 100]) {
        bytes.push(random.draw() as u8);
    }
}
