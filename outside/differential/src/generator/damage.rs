//! Damaged logs and random bytes.

use super::random::Random;

/// A log with some of its bytes or fields changed, cut off, put in or taken out.
pub fn damaged(random: &mut Random, log: Vec<u8>) -> Vec<u8> {
    let mut bytes = log;
    for _ in 0..random.of(&[1, 1, 1, 2, 4]) {
        if bytes.is_empty() {
            break;
        }
        if random.one_in(3) {
            damage_fields(random, &mut bytes);
        } else {
            damage_bytes(random, &mut bytes);
        }
    }
    bytes
}

fn damage_bytes(random: &mut Random, bytes: &mut Vec<u8>) {
    // Most often near the front, where the table is.
    let reach = random.of(&[bytes.len(), bytes.len(), bytes.len().min(60), bytes.len().min(16)]);
    let place = random.below(reach);
    match random.below(7) {
        0 => bytes[place] = random.byte(),
        1 => bytes[place] ^= 1 << random.below(8),
        2 => bytes[place] = random.of(&[0, 1, 2, 3, 4, 5, 0x11, 0x12, 0x13, 0x14, 0x15, 255]),
        3 => bytes.truncate(place),
        4 => bytes.insert(place, random.byte()),
        5 => drop(bytes.remove(place)),
        _ => {
            let end = (place + random.between(1, 9)).min(bytes.len());
            drop(bytes.drain(place..end));
        }
    }
}

/// Takes out, doubles or swaps whole fields: a ninth resource and a 33rd job come from here.
fn damage_fields(random: &mut Random, bytes: &mut Vec<u8>) {
    let mut fields = split(bytes);
    let reach = fields.len().min(random.of(&[3, 12, 50, usize::MAX]));
    let place = random.below(reach);
    match random.below(4) {
        0 => drop(fields.remove(place)),
        1 => fields.insert(place, fields[place].clone()),
        2 => {
            let other = random.below(fields.len());
            fields.swap(place, other);
        }
        _ => {
            let other = random.below(fields.len());
            let moved = fields[other].clone();
            fields.insert(place, moved);
        }
    }
    *bytes = fields.concat();
}

/// The bytes cut into fields, as far as they are fields; the last part is what is left.
fn split(bytes: &[u8]) -> Vec<Vec<u8>> {
    let mut fields = Vec::new();
    let mut rest = bytes;
    while rest.len() >= 3 {
        let length = 3 + usize::from(u16::from_be_bytes([rest[1], rest[2]]));
        let (field, after) = rest.split_at(length.min(rest.len()));
        fields.push(field.to_vec());
        rest = after;
    }
    if !rest.is_empty() || fields.is_empty() {
        fields.push(rest.to_vec());
    }
    fields
}

/// Random bytes, some of them behind a good beginning.
pub fn bytes(random: &mut Random) -> Vec<u8> {
    let beginning: &[u8] =
        random.of(&[&[], &[], &[1, 0, 1, 1], &[1, 0, 1, 1, 2, 0, 2, 255, 255], &[1, 0, 1, 1, 2, 0, 2, 0, 9, 4, 0, 3, 1, 0, 1, 5, 0, 0]]);
    let mut bytes = beginning.to_vec();
    let count = random.of(&[0, 1, 2, 3, 4, 10, 100]);
    let small = random.one_in(2);
    for _ in 0..random.below(count + 1) {
        let byte = random.byte();
        bytes.push(if small { byte % 24 } else { byte });
    }
    bytes
}

/// Fields with tags that exist and lengths that mostly fit, in any order.
pub fn fields(random: &mut Random) -> Vec<u8> {
    let mut bytes = vec![1, 0, 1, 1, 2, 0, 2, 255, 255];
    let resources = random.below(10);
    for _ in 0..resources {
        bytes.extend([3, 0, 2, 0, random.between(1, 4) as u8]);
    }
    for _ in 0..random.below(36) {
        let tag = random.of(&[4, 4, 4, 4, 4, 4, 4, 4, 4, 4, 4, 4, 5, 0x11, 3]);
        let length = match tag {
            3 => 2,
            4 => 3 + 2 * resources,
            5 => 0,
            _ => 1,
        };
        let length = if random.one_in(60) { length + 1 } else { length };
        bytes.extend([tag, 0, length as u8]);
        for place in 0..length {
            bytes.push(if place % 2 == 1 { 0 } else { random.between(1, 3) as u8 % 3 });
        }
    }
    bytes
}
