//! Damage to the bytes of a log or a report, as a bad link or a bad card would do it.

use crate::chance::Chance;
use crate::records::{KINDS, OPENING};

/// Damages bytes whose records are of these kinds.
pub fn damaged(chance: &mut Chance, kinds: &[u8], mut bytes: Vec<u8>) -> Vec<u8> {
    for _ in 0..chance.pick(&[1, 1, 1, 2, 4]) {
        damage(chance, kinds, &mut bytes);
    }
    bytes
}

fn damage(chance: &mut Chance, kinds: &[u8], bytes: &mut Vec<u8>) {
    if bytes.is_empty() {
        return;
    }
    match chance.below(6) {
        0 => change(chance, bytes),
        1 => bytes.truncate(chance.below(bytes.len())),
        2 => remove(chance, bytes),
        3 => double(chance, bytes),
        4 => replace_kind(chance, kinds, bytes),
        _ => change_slightly(chance, bytes),
    }
}

/// A place in the bytes, more often behind the first two than in them.
fn place(chance: &mut Chance, bytes: &[u8]) -> usize {
    if bytes.len() > 2 && !chance.one_in(20) {
        return chance.between(2, bytes.len() - 1);
    }
    chance.below(bytes.len())
}

/// A range of one to nine of the bytes.
fn range(chance: &mut Chance, bytes: &[u8]) -> (usize, usize) {
    let start = place(chance, bytes);
    (start, bytes.len().min(start + chance.between(1, 9)))
}

fn change(chance: &mut Chance, bytes: &mut [u8]) {
    let place = place(chance, bytes);
    bytes[place] = chance.byte();
}

fn change_slightly(chance: &mut Chance, bytes: &mut [u8]) {
    let place = place(chance, bytes);
    bytes[place] = bytes[place].wrapping_add(chance.pick(&[1, 255]));
}

fn remove(chance: &mut Chance, bytes: &mut Vec<u8>) {
    let (start, end) = range(chance, bytes);
    bytes.drain(start..end);
}

fn double(chance: &mut Chance, bytes: &mut Vec<u8>) {
    let (start, end) = range(chance, bytes);
    let twice = bytes[start..end].to_vec();
    bytes.splice(end..end, twice);
}

/// Gives some record another kind, which may have a body of another length.
fn replace_kind(chance: &mut Chance, kinds: &[u8], bytes: &mut [u8]) {
    let is_kind = |place: &usize| kinds.contains(&bytes[*place]);
    let places: Vec<usize> = (0..bytes.len()).filter(is_kind).collect();
    if !places.is_empty() {
        let unknown = kinds[kinds.len() - 1] + 1;
        bytes[chance.pick(&places)] = chance.pick(&[kinds, &[unknown]].concat());
    }
}

/// Bytes of chance, some of them such as a log has.
pub fn any_log(chance: &mut Chance, length: usize) -> Vec<u8> {
    let nodes = chance.between(1, 32);
    let mut log = any_bytes(chance, &KINDS, nodes, length);
    if !chance.one_in(4) && length >= 2 {
        log[0] = OPENING;
        log[1] = nodes as u8;
    }
    log
}

/// Bytes of chance, some of them of these kinds and some no higher than the node count.
pub fn any_bytes(chance: &mut Chance, kinds: &[u8], nodes: usize, length: usize) -> Vec<u8> {
    let byte = |_| match chance.below(8) {
        0 => chance.byte(),
        1..=4 => chance.pick(kinds),
        _ => chance.below(nodes + 1) as u8,
    };
    (0..length).map(byte).collect()
}
