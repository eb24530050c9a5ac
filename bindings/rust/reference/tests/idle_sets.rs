//! The comparison finds engines that have another law for sets. Each one here is the
//! reference on a table whose sets are changed.

use noontrough_reference::class::{Class, Pair};
use noontrough_reference::table::{kind, HEADER, MAX_PAIRS, MAX_POOL};
use noontrough_reference::trial::compare;
use noontrough_reference::{Answer, Calls, ClashAnswer, PutAnswer, Reference};

/// The reference on other tables: `checked` is the one that is accepted or refused,
/// and an accepted one is then read as `read`.
struct OtherTables {
    checked: fn(&[u8]) -> Vec<u8>,
    read: fn(&[u8]) -> Vec<u8>,
}

impl Calls for OtherTables {
    fn check(&self, table: &[u8]) -> Answer {
        Reference.check(&(self.checked)(table))
    }
    fn get(&self, table: &[u8], source: &[u8], out: &mut [u8]) -> Answer {
        self.check(table)?;
        Reference.get(&(self.read)(table), source, out)
    }
    fn put(&self, table: &[u8], sheet: &[u8], source: &[u8], out: &mut [u8]) -> PutAnswer {
        self.check(table)?;
        Reference.put(&(self.read)(table), sheet, source, out)
    }
    fn create(&self, table: &[u8], sheet: &[u8], out: &mut [u8]) -> Answer {
        self.check(table)?;
        Reference.create(&(self.read)(table), sheet, out)
    }
    fn clash(&self, table: &[u8], out: &mut [u8]) -> ClashAnswer {
        Reference.clash(&(self.checked)(table), out)
    }
}

/// A table with the pairs of every set changed. The new ones go to the end of the pool,
/// so that words stay; a table with no room for them stays, and so does a set whose part
/// is wrong.
fn with_pairs(table: &[u8], change: fn(Vec<Pair>) -> Vec<Pair>) -> Vec<u8> {
    let Some((count, pool_start)) = sizes(table) else { return table.to_vec() };
    let mut changed = table.to_vec();
    for node in (0..count).filter(|node| table[HEADER + node] == kind::SET) {
        let record = HEADER + count + 3 * node;
        let start = pool_start + 256 * usize::from(table[record]) + usize::from(table[record + 1]);
        let length = 2 * usize::from(table[record + 2]);
        let Some(part) = table.get(start..start + length).filter(|part| !part.is_empty()) else { continue };
        let pairs = change(part.chunks(2).map(|ends| (ends[0], ends[1])).collect());
        let place = changed.len() - pool_start;
        changed[record..record + 3].copy_from_slice(&[(place / 256) as u8, (place % 256) as u8, pairs.len() as u8]);
        changed.extend(pairs.iter().flat_map(|&(first, last)| [first, last]));
    }
    with_pool_length(changed, pool_start).unwrap_or_else(|| table.to_vec())
}

/// The number of nodes and where the pool begins, if the sizes are right.
fn sizes(table: &[u8]) -> Option<(usize, usize)> {
    let [count, high, low, ..] = *table else { return None };
    let pool_start = HEADER + 4 * usize::from(count);
    let pool_length = 256 * usize::from(high) + usize::from(low);
    (table.len() == pool_start + pool_length && pool_length <= MAX_POOL).then_some((count.into(), pool_start))
}

/// The table with the length of its pool written into it, if that is not too long.
fn with_pool_length(mut table: Vec<u8>, pool_start: usize) -> Option<Vec<u8>> {
    let length = table.len() - pool_start;
    table[1..HEADER].copy_from_slice(&[(length / 256) as u8, (length % 256) as u8]);
    (length <= MAX_POOL).then_some(table)
}

fn unchanged(table: &[u8]) -> Vec<u8> {
    table.to_vec()
}

fn hulls(table: &[u8]) -> Vec<u8> {
    with_pairs(table, |pairs| {
        let lowest = pairs.iter().map(|pair| pair.0).min();
        let highest = pairs.iter().map(|pair| pair.1).max();
        lowest.zip(highest).into_iter().collect()
    })
}

fn is_found(checked: fn(&[u8]) -> Vec<u8>, read: fn(&[u8]) -> Vec<u8>) -> bool {
    compare(&OtherTables { checked, read }, 25, 500).is_err()
}

fn both_are_found(change: fn(&[u8]) -> Vec<u8>) -> bool {
    is_found(change, unchanged) && is_found(unchanged, change)
}

#[test]
fn the_law_itself_is_not_found() {
    assert!(!is_found(unchanged, unchanged));
    assert!(!is_found(unchanged, |table| with_pairs(table, |pairs| pairs)), "pairs at another place of the pool");
    assert!(!is_found(unchanged, |table| with_pairs(table, |pairs| {
        let runs = Class::of_pairs(pairs).runs();
        runs.into_iter().take(MAX_PAIRS).collect()
    })));
}

#[test]
fn a_law_of_the_first_pair_is_found() {
    assert!(both_are_found(|table| with_pairs(table, |pairs| pairs[..1].to_vec())));
}

#[test]
fn a_law_without_the_last_pair_is_found() {
    assert!(both_are_found(|table| with_pairs(table, |pairs| pairs[..(pairs.len() - 1).max(1)].to_vec())));
}

#[test]
fn hulls_are_found() {
    assert!(both_are_found(hulls));
}

#[test]
fn pairs_without_their_last_byte_are_found() {
    let change = |table: &[u8]| {
        with_pairs(table, |pairs| {
            let shorter = |(first, last): Pair| if first < last { (first, last - 1) } else { (first, last) };
            pairs.into_iter().map(shorter).collect()
        })
    };
    assert!(both_are_found(change));
}

/// A byte of two pairs would be in neither.
#[test]
fn pairs_that_cancel_each_other_are_found() {
    let change = |table: &[u8]| {
        with_pairs(table, |pairs| {
            let holding = |byte: u8| pairs.iter().filter(|(first, last)| (*first..=*last).contains(&byte)).count();
            let odd = (0..=255).filter(|&byte| holding(byte) % 2 == 1).map(|byte| (byte, byte));
            let runs = Class::of_pairs(odd).runs();
            if (1..=MAX_PAIRS).contains(&runs.len()) {
                runs
            } else {
                pairs
            }
        })
    };
    assert!(is_found(unchanged, change));
}

#[test]
fn reversed_pairs_that_pass_are_found() {
    let turned = |table: &[u8]| {
        with_pairs(table, |pairs| pairs.into_iter().map(|(one, other)| (one.min(other), one.max(other))).collect())
    };
    let only_the_first_asked = |table: &[u8]| {
        with_pairs(table, |pairs| {
            let first = pairs[0];
            std::iter::once(first).chain(pairs.into_iter().skip(1).filter(|(first, last)| first <= last)).collect()
        })
    };
    assert!(is_found(turned, turned));
    assert!(is_found(only_the_first_asked, only_the_first_asked));
}

/// The pool would be asked about one byte a pair.
#[test]
fn parts_outside_the_pool_that_pass_are_found() {
    let change = |table: &[u8]| {
        let Some((count, pool_start)) = sizes(table) else { return table.to_vec() };
        let mut changed = table.to_vec();
        for node in (0..count).filter(|node| table[HEADER + node] == kind::SET) {
            let [high, low, pairs] = [0, 1, 2].map(|operand| usize::from(table[HEADER + count + 3 * node + operand]));
            let start = pool_start + 256 * high + low;
            if start + pairs <= table.len() && start + 2 * pairs > changed.len() {
                changed.resize(start + 2 * pairs, u8::MAX);
            }
        }
        with_pool_length(changed, pool_start).unwrap_or_else(|| table.to_vec())
    };
    assert!(is_found(change, change));
}

/// The count would be cut down to what is allowed.
#[test]
fn too_many_pairs_that_pass_are_found() {
    let change = |table: &[u8]| with_pairs(table, |pairs| pairs.into_iter().take(MAX_PAIRS).collect());
    assert!(is_found(change, change));
}
