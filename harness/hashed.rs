//! Distinct, union and intersect with a work area: an own reading of Note 9. All but the refusal of a
//! short area is the plain operation's.

use crate::model::{self, ListColumn, Operation, Refusal, ResultForm, Row, Shown, Width};

/// "Twice the elements of the longest valid row (for union and intersect, of the longest pair of rows
/// valid on both sides, taken together)."
pub fn least_area(lists: &[Vec<Row>]) -> usize {
    let length = |row: usize| {
        let lengths = lists.iter().map(|rows| rows[row].as_ref().map(Vec::len));
        lengths.sum::<Option<usize>>()
    };
    2 * (0..lists[0].len()).filter_map(length).max().unwrap_or(0)
}

/// What a call shows whose columns are not refused.
pub fn shown(operation: Operation, lists: &[ListColumn]) -> Result<Shown, Refusal> {
    match model::column_refusal(operation, lists, &[]) {
        Some(number) => Err(number),
        None => Ok(model::shown(lists, &[])),
    }
}

/// The whole call, with this many slots in each output and in the work area: "14, .. after 3 and before
/// 8"; "except for 14, their answers and outputs equal the plain ones on every input".
pub fn outcome(
    operation: Operation,
    lists: &[ListColumn],
    lengths: &[usize],
    area: usize,
) -> Result<ResultForm, Refusal> {
    if area < least_area(&shown(operation, lists)?.lists) {
        return Err(14);
    }
    model::outcome(Width::Narrow, operation, lists, &[], lengths)
}

// A hash, of which values with equal numbers are sought. What the library hashes by is its own
// business: no answer depends on it.

const LOW: u64 = 1640531527;
const HIGH: u64 = 1327217885;

/// The number by which a value would find its bucket.
pub fn hash(value: i64) -> u64 {
    let (low, high) = (value as u64 % (1 << 32), value as u64 >> 32);
    let sum = low * LOW + high * HIGH;
    (sum % (1 << 32) + (sum >> 32)) % (1 << 32)
}

/// So many different values with one hash, found by trying: a high half takes some low half to any
/// number modulo 2 to the 32 less one, which is nearly the hash.
pub fn colliding(count: usize, seed: u64) -> Vec<i64> {
    const MODULUS: u64 = (1 << 32) - 1;
    let inverse = inverse_modulo(LOW, MODULUS);
    let wanted = hash(seed as i64);
    let mut found = Vec::new();
    for step in 0u64.. {
        let high = (seed.wrapping_mul(31) + step * 2654435761) % (1 << 32);
        let rest = (wanted + MODULUS - high * HIGH % MODULUS) % MODULUS;
        let low = rest * inverse % MODULUS;
        let value = (high << 32 | low) as i64;
        if hash(value) == wanted && !found.contains(&value) {
            found.push(value);
        }
        if found.len() == count {
            break;
        }
    }
    found
}

/// The number whose product with this one is 1 modulo the other.
fn inverse_modulo(number: u64, modulus: u64) -> u64 {
    let (mut rest, mut next) = (modulus as i128, number as i128);
    let (mut factor, mut next_factor) = (0i128, 1i128);
    while next != 0 {
        let quotient = rest / next;
        (rest, next) = (next, rest - quotient * next);
        (factor, next_factor) = (next_factor, factor - quotient * next_factor);
    }
    assert_eq!(rest, 1, "a number that has an inverse");
    factor.rem_euclid(modulus as i128) as u64
}
