//! The comparison finds engines that have another law for keys. Each one here is the
//! reference but for the puts of programs that are one repeated entry: there it looks
//! entries up by what the law makes of their sheets.

use noontrough_reference::calls::{MAX_ENTRIES, MAX_TEXT};
use noontrough_reference::lens::trimmed;
use noontrough_reference::table::{Node, Side, HEADER};
use noontrough_reference::trial::compare;
use noontrough_reference::{Answer, Calls, ClashAnswer, Program, Put, PutAnswer, Reference, Refusal, Tally};

/// What is compared of an entry, from the program of the match's child and the entry's
/// sheet.
type Law = fn(&Program, &[u8]) -> Vec<u8>;

/// What is written for a sheet entry that found an old one, from the same program, the
/// entry's sheet and the old entry.
type Write = fn(&Program, &[u8], &[u8]) -> Vec<u8>;

struct OtherLaw {
    law: Law,
    write: Write,
}

impl Calls for OtherLaw {
    fn check(&self, table: &[u8]) -> Answer {
        Reference.check(table)
    }
    fn get(&self, table: &[u8], source: &[u8], out: &mut [u8]) -> Answer {
        Reference.get(table, source, out)
    }
    fn put(&self, table: &[u8], sheet: &[u8], source: &[u8], out: &mut [u8]) -> PutAnswer {
        let Some(entries) = Entries::of(table, sheet, source) else {
            return Reference.put(table, sheet, source, out);
        };
        let (new, tally) = entries.put(self);
        if new.len() > out.len().min(MAX_TEXT) {
            return Err(Refusal::of_call(16));
        }
        out[..new.len()].copy_from_slice(&new);
        Ok(Put { length: new.len(), tally })
    }
    fn create(&self, table: &[u8], sheet: &[u8], out: &mut [u8]) -> Answer {
        Reference.create(table, sheet, out)
    }
    fn clash(&self, table: &[u8], out: &mut [u8]) -> ClashAnswer {
        Reference.clash(table, out)
    }
}

/// The entries of a put whose program is one repeated entry.
struct Entries {
    /// The match's child alone.
    child: Program,
    sheets: Vec<Vec<u8>>,
    old: Vec<Vec<u8>>,
}

impl Entries {
    /// None for other programs, and for texts that are refused.
    fn of(table: &[u8], sheet: &[u8], source: &[u8]) -> Option<Entries> {
        let program = Program::read(table).ok()?;
        let Node::LensRepeat(part) = *program.node(program.root()) else { return None };
        let Node::Match(child) = *program.node(part) else { return None };
        let fits = |side, text: &[u8]| text.len() <= MAX_TEXT && program.fits(program.root(), side, text);
        if !fits(Side::Sheet, sheet) || !fits(Side::Source, source) || program.count_entries(source) > MAX_ENTRIES {
            return None;
        }
        let parts = |side, text: &[u8]| {
            let ranges = program.parts(program.root(), part, side, text);
            ranges.into_iter().map(|range| text[range].to_vec()).collect()
        };
        let (sheets, old) = (parts(Side::Sheet, sheet), parts(Side::Source, source));
        Some(Entries { child: up_to(table, child), sheets, old })
    }

    fn put(&self, &OtherLaw { law, write }: &OtherLaw) -> (Vec<u8>, Tally) {
        let keyed = |old: &Vec<u8>| (law(&self.child, &self.child.get(old)), old.clone());
        let mut book: Vec<(Vec<u8>, Vec<u8>)> = self.old.iter().map(keyed).collect();
        let (mut new, mut tally) = (Vec::new(), Tally::default());
        for sheet in &self.sheets {
            let key = law(&self.child, sheet);
            match book.iter().position(|(old_key, _)| *old_key == key) {
                Some(place) => {
                    let (_, old) = book.remove(place);
                    new.extend(write(&self.child, sheet, &old));
                    tally.kept += 1;
                }
                None => {
                    new.extend(self.child.create(sheet));
                    tally.made += 1;
                }
            }
        }
        tally.dropped = book.len();
        (new, tally)
    }
}

/// The program whose root is this node: a child has a lower number than its parent, so
/// those behind it are left away.
fn up_to(table: &[u8], root: usize) -> Program {
    let (count, kept) = (usize::from(table[0]), root + 1);
    let (kinds, rest) = table[HEADER..].split_at(count);
    let (records, pool) = rest.split_at(3 * count);
    let shorter = [&[kept as u8], &table[1..HEADER], &kinds[..kept], &records[..3 * kept], pool].concat();
    Program::read(&shorter).expect("all its nodes are accepted")
}

fn key(child: &Program, sheet: &[u8]) -> Vec<u8> {
    child.key(child.root(), sheet)
}

fn trimmed_key(child: &Program, sheet: &[u8]) -> Vec<u8> {
    trimmed(&key(child, sheet)).to_vec()
}

fn is_found(law: Law) -> bool {
    let write: Write = |child, sheet, old| child.put(sheet, old).source;
    compare(&OtherLaw { law, write }, 26, 500).is_err()
}

#[test]
fn the_law_itself_is_not_found() {
    assert!(!is_found(trimmed_key));
}

#[test]
fn names_that_keep_their_old_padding_are_found() {
    let write: Write = |child, sheet, old| {
        let is_repadded = key(child, sheet) != key(child, &child.get(old));
        if is_repadded {
            old.to_vec()
        } else {
            child.put(sheet, old).source
        }
    };
    assert!(compare(&OtherLaw { law: trimmed_key, write }, 26, 500).is_err());
}

#[test]
fn bytes_alone_are_found() {
    assert!(is_found(key));
}

#[test]
fn one_space_cut_is_found() {
    assert!(is_found(|child, sheet| {
        let key = key(child, sheet);
        key.strip_suffix(b" ").unwrap_or(&key).to_vec()
    }));
}

#[test]
fn spaces_cut_in_front_too_are_found() {
    assert!(is_found(|child, sheet| {
        let key = key(child, sheet);
        trimmed(&key).iter().copied().skip_while(|&byte| byte == b' ').collect()
    }));
}

#[test]
fn all_spaces_cut_are_found() {
    assert!(is_found(|child, sheet| key(child, sheet).into_iter().filter(|&byte| byte != b' ').collect()));
}

#[test]
fn tabs_cut_too_are_found() {
    assert!(is_found(|child, sheet| key(child, sheet).trim_ascii_end().to_vec()));
}

#[test]
fn a_key_of_spaces_that_keeps_one_is_found() {
    assert!(is_found(|child, sheet| {
        let key = key(child, sheet);
        let short = trimmed(&key);
        if short.is_empty() && !key.is_empty() { b" " } else { short }.to_vec()
    }));
}

#[test]
fn key_parts_cut_one_by_one_are_found() {
    assert!(is_found(|child, sheet| {
        let mut key = Vec::new();
        child.each_part(Side::Sheet, sheet, &mut |node, text| {
            if matches!(child.node(node), Node::Key(_)) {
                key.extend_from_slice(trimmed(text));
            }
        });
        key
    }));
}

#[test]
fn long_keys_that_equal_none_are_found() {
    assert!(is_found(|child, sheet| {
        let key = key(child, sheet);
        if key.len() > MAX_TEXT { &key } else { trimmed(&key) }.to_vec()
    }));
}

#[test]
fn long_keys_cut_at_4096_bytes_are_found() {
    assert!(is_found(|child, sheet| {
        let key = key(child, sheet);
        trimmed(&key[..key.len().min(MAX_TEXT)]).to_vec()
    }));
}
