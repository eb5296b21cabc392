//! Faults put into listings from outside: damaged bytes and lines, and damaged nesting.

use crate::bytecode::{Chunk, Op};
use crate::random::Random;

/// A damaged copy of a listing's bytes.
pub fn damaged(random: &mut Random, listing: &[u8]) -> Vec<u8> {
    match random.below(10) {
        0 => byte_changed(random, listing),
        1 => byte_dropped(random, listing),
        2 => byte_put_in(random, listing),
        3 => listing[..random.below(listing.len() + 1)].to_vec(),
        4..=6 => lines_changed(random, listing),
        _ => number_changed(random, listing),
    }
}

/// Bytes that stand in listings, and some that do not.
const BYTES: &[u8] = b"()0123456789  \n\n-+xFlatABoxed\t\r\0\xff";

fn byte_changed(random: &mut Random, listing: &[u8]) -> Vec<u8> {
    let mut bytes = listing.to_vec();
    let at = random.below(bytes.len());
    bytes[at] = random.pick(BYTES);
    bytes
}

fn byte_dropped(random: &mut Random, listing: &[u8]) -> Vec<u8> {
    let mut bytes = listing.to_vec();
    bytes.remove(random.below(bytes.len()));
    bytes
}

fn byte_put_in(random: &mut Random, listing: &[u8]) -> Vec<u8> {
    let mut bytes = listing.to_vec();
    bytes.insert(random.below(bytes.len() + 1), random.pick(BYTES));
    bytes
}

/// A line dropped, doubled, or swapped with another.
fn lines_changed(random: &mut Random, listing: &[u8]) -> Vec<u8> {
    let mut lines: Vec<&[u8]> = listing.split_inclusive(|byte| *byte == b'\n').collect();
    let count = lines.len();
    let at = random.below(count);
    match random.below(4) {
        0 => {
            lines.remove(at);
        }
        1 => lines.insert(at, lines[at]),
        2 => lines.swap(at, (at + 1) % count),
        _ => lines.swap(at, random.below(count)),
    }
    lines.concat()
}

/// A number made greater or less by one.
fn number_changed(random: &mut Random, listing: &[u8]) -> Vec<u8> {
    let is_start = |at: &usize| listing[*at].is_ascii_digit() && (*at == 0 || !listing[*at - 1].is_ascii_digit());
    let starts: Vec<usize> = (0..listing.len()).filter(is_start).collect();
    if starts.is_empty() {
        return listing.to_vec();
    }
    let start = random.pick(&starts);
    let digits: Vec<u8> = listing[start..].iter().copied().take_while(u8::is_ascii_digit).collect();
    let number: u64 = str::from_utf8(&digits).ok().and_then(|text| text.parse().ok()).unwrap_or(0);
    let changed = if random.chance(50) { number + 1 } else { number.saturating_sub(1) };
    let mut bytes = listing[..start].to_vec();
    bytes.extend(changed.to_string().bytes());
    bytes.extend(&listing[start + digits.len()..]);
    bytes
}

/// Breaks the nesting of a chunk, or tries to: a target, a closer or a break becomes another, or one is put in.
pub fn misnest(random: &mut Random, chunk: &mut Chunk) {
    let structural = |op: &mut Op| *op == Op::EndIf || target_of(op).is_some();
    let places: Vec<usize> = (0..chunk.ops.len()).filter(|ip| structural(&mut chunk.ops[*ip])).collect();
    if places.is_empty() || random.chance(15) {
        let at = random.below(chunk.ops.len() + 1);
        chunk.ops.insert(at, stray(random));
        return;
    }
    let at = random.pick(&places);
    match random.below(5) {
        0 => chunk.ops[at] = stray(random),
        2 => name_another_closer(random, &mut chunk.ops, at),
        1 => {
            let other = random.pick(&places);
            chunk.ops.swap(at, other);
        }
        _ => match target_of(&mut chunk.ops[at]) {
            Some(target) if random.chance(80) => {
                *target = target.saturating_add_signed(random.pick(&[-2, -1, 1, 2]));
            }
            Some(target) => *target = random.word(),
            None => {
                chunk.ops.remove(at);
            }
        },
    }
}

/// Gives an opener, or an Else, the target that some closer's own opener would have.
fn name_another_closer(random: &mut Random, ops: &mut [Op], at: usize) {
    let is_closer = |ip: &usize| matches!(ops[*ip], Op::EndIf | Op::Else(_) | Op::EndLoop(_));
    let closers: Vec<usize> = (0..ops.len()).filter(is_closer).collect();
    if closers.is_empty() {
        return;
    }
    let closer = random.pick(&closers);
    let target = if ops[closer] == Op::EndIf { closer } else { closer + 1 };
    if let Some(own) = target_of(&mut ops[at]) {
        *own = target as u16;
    }
}

fn stray(random: &mut Random) -> Op {
    let target = random.word();
    random.pick(&[
        Op::EndIf,
        Op::Else(target),
        Op::EndLoop(target),
        Op::Break(target),
        Op::BreakIf(target),
        Op::If(target),
        Op::Loop(target),
        Op::Dup,
    ])
}

fn target_of(op: &mut Op) -> Option<&mut u16> {
    match op {
        Op::If(target)
        | Op::Else(target)
        | Op::Loop(target)
        | Op::EndLoop(target)
        | Op::Break(target)
        | Op::BreakIf(target) => Some(target),
        _ => None,
    }
}
