//! Damaged copies of a file: cut, bytes changed, codes, handles, counts, stray and missing items.

use crate::random::Random;
use crate::records::{Field, Record, Records, fields, sort};

const LISTED: [u8; 30] = [
    0x01, 0x10, 0x11, 0x12, 0x13, 0x14, 0x15, 0x20, 0x21, 0x22, 0x23, 0x24, 0x30, 0x31, 0x32, 0x33,
    0x34, 0x35, 0x36, 0x37, 0x38, 0x39, 0x3a, 0x3b, 0x3c, 0x3d, 0x40, 0x41, 0x42, 0x43,
];

pub fn damage(random: &mut Random, file: &[u8]) -> Vec<u8> {
    let mut damaged = once(random, file);
    while random.chance(1, 4) {
        damaged = once(random, &damaged);
    }
    damaged
}

fn once(random: &mut Random, file: &[u8]) -> Vec<u8> {
    let mut parts = Records::of(file);
    if parts.records.is_empty() {
        let mut bytes = file.to_vec();
        bytes.push(random.bits() as u8);
        return bytes;
    }
    match random.below(10) {
        0 => return cut(random, file),
        1 => return byte_changed(random, file),
        2 => kind_changed(random, &mut parts),
        3..=5 => field_changed(random, &mut parts),
        6 => stray(random, &mut parts),
        7 => drop_or_repeat(random, &mut parts),
        8 => swap(random, &mut parts),
        _ => parts.tail.push(random.pick(&[0x00, 0x24, 0x40, 0xff, 0x01, 0x23])),
    }
    parts.bytes()
}

fn cut(random: &mut Random, file: &[u8]) -> Vec<u8> {
    file[..random.below(file.len())].to_vec()
}

fn byte_changed(random: &mut Random, file: &[u8]) -> Vec<u8> {
    let mut bytes = file.to_vec();
    let place = random.below(bytes.len());
    bytes[place] = match random.below(3) {
        0 => random.bits() as u8,
        1 => bytes[place].wrapping_add(1),
        _ => bytes[place] ^ (1 << random.below(8)),
    };
    bytes
}

fn some(random: &mut Random, parts: &Records) -> usize {
    random.below(parts.records.len())
}

fn kind_changed(random: &mut Random, parts: &mut Records) {
    let place = some(random, parts);
    let kind = if random.chance(2, 3) { random.pick(&LISTED) } else { random.bits() as u8 };
    parts.records[place].kind = kind;
}

fn field_changed(random: &mut Random, parts: &mut Records) {
    // A record with a field: literals of numbers have none.
    let with: Vec<usize> =
        (0..parts.records.len()).filter(|i| !fields(parts.records[*i].kind).is_empty()).collect();
    if with.is_empty() {
        return kind_changed(random, parts);
    }
    let place = random.pick(&with);
    let field = random.pick(fields(parts.records[place].kind));
    match field {
        Field::Code(at) => {
            let code = parts.records[place].body[at];
            parts.records[place].body[at] =
                random.pick(&[0, 1, 2, 4, 5, 6, 7, 255, code.wrapping_add(1)]);
        }
        Field::Handle(wanted, at) => {
            let before = &parts.records[..place];
            let defined = before.iter().filter(|r| sort(r.kind) == Some(wanted)).count() as u16;
            let handle = parts.records[place].number(at);
            let changed = random.pick(&[
                defined,
                defined.wrapping_add(1),
                defined.wrapping_sub(1),
                handle.wrapping_add(1),
                handle.wrapping_sub(1),
                0,
                0xffff,
                handle ^ 0x0100,
            ]);
            parts.records[place].set(at, changed);
        }
        Field::Count(at) => {
            let count = parts.records[place].number(at);
            let changed = random.pick(&[
                count.wrapping_add(1),
                count.wrapping_sub(1),
                0,
                0xffff,
                count ^ 0x0100,
            ]);
            parts.records[place].set(at, changed);
        }
        Field::Number(at) => {
            let number = random.bits() as u16;
            parts.records[place].set(at, number);
        }
    }
}

fn stray(random: &mut Random, parts: &mut Records) {
    let kind = random.pick(&[0x24, 0x40, 0x41, 0x42, 0x43]);
    let body = vec![0; if matches!(kind, 0x41 | 0x42) { 4 } else { 2 }];
    let place = random.between(0, parts.records.len());
    parts.records.insert(place, Record { kind, body });
}

fn drop_or_repeat(random: &mut Random, parts: &mut Records) {
    // Items are the more interesting half.
    let items: Vec<usize> =
        (0..parts.records.len()).filter(|i| parts.records[*i].is_item()).collect();
    let place = if !items.is_empty() && random.chance(1, 2) {
        random.pick(&items)
    } else {
        some(random, parts)
    };
    if random.chance(1, 2) {
        parts.records.remove(place);
    } else {
        let record = parts.records[place].clone();
        parts.records.insert(place, record);
    }
}

fn swap(random: &mut Random, parts: &mut Records) {
    let (a, b) = (some(random, parts), some(random, parts));
    parts.records.swap(a, b);
}
