//! What the programs and calls of a comparison are like, so that a generator
//! that no longer draws some kind is found out. Each kind is looked up in the
//! program and the texts themselves; how they were drawn plays no part.

use std::collections::{BTreeMap, BTreeSet};
use std::fmt;

use crate::ambiguity::overlap;
use crate::answer::{Answer, RESULT_TOO_LONG};
use crate::calls::MAX_TEXT;
use crate::generator::cases::{Call, Case};
use crate::lens::trimmed;
use crate::program::Program;
use crate::table::{Node, Side, SIDES};

pub mod afm;
mod clashes;
mod padding;
mod puts;
mod sets;

#[derive(Clone, Copy, Debug, PartialEq, Eq, PartialOrd, Ord)]
pub enum Kind {
    // Programs, and the calls with legal texts of such programs.
    /// A union with overlapping sheets below another one.
    UnionsTwoDeep,
    UnionsThreeDeep,
    /// Such a union is the left arm of another one.
    UnionsOnTheLeft,
    UnionsOnTheRight,
    UnionsInAMatch,
    UnionsInARepeat,
    /// A leaf with no positions on both sides, or on one alone.
    EmptyLeaf,
    EmptySourceLeaf,
    EmptySheetLeaf,
    /// A leaf so many lenses below the root.
    Deep20,
    Deep60,
    /// So many times a first operand, a second operand, on one way down.
    DeepOnTheLeft20,
    DeepOnTheRight20,
    /// Both halves of a join hold a match.
    JoinOfMatches,
    /// Both hold one over the same child.
    JoinOfOneChild,
    /// Both arms of a union hold a match.
    UnionOfMatches,
    /// A repeat of a match itself.
    RepeatOfAMatch,
    /// A repeat of a union of which one arm holds a match.
    RepeatOfMatchOrRemark,
    /// A repeat of a join whose halves both hold a match.
    RepeatOfTwoMatches,
    /// A node of kind 5; with one pair, with as many as there can be.
    Sets,
    SetOfOnePair,
    SetOf32Pairs,
    /// A pair is lower than the one before it, two share a byte, one has all bytes.
    SetOutOfOrder,
    SetOverlapping,
    SetOfEveryByte,
    /// The last pair is at the pool's end; 32 of them are at that of the longest.
    SetAtThePoolsEnd,
    SetAt448,
    /// At least 30 nodes of kind 5 have one pool part.
    ManySetsOfOnePart,
    /// Two classes share no byte, though they do from their lowest to their highest.
    HullsMeetOnly,

    // Programs refused for a set, and all calls of such programs.
    /// With 3: no pair or more than 32, a part that leaves the pool, the first pair
    /// reversed, a later one, a set as a const's word.
    SetOfNoneOrTooMany,
    SetOutsideThePool,
    SetReversed,
    SetReversedLater,
    SetForAWord,
    /// With 7 to 11, and a node of kind 5 is below the node.
    SetsAndAClash,

    // Calls with legal texts only.
    /// Both arms of a union could read a part of the sheet.
    SheetOfBothArms,
    /// A part of the old source is of a right arm, and the left arm could read
    /// its sheet.
    OldRightArmLikeLeft,
    /// A program of depth 20 with a text of at most 8, at least 100 bytes.
    DeepShortText,
    DeepLongText,
    /// Several positions read a byte of a text of such a length.
    ChoicesAt63To65,
    ChoicesAt127To129,
    ChoicesAt4095To4096,
    /// A put with an old entry whose sheet is longer than a text may be.
    LongEntry,
    LongEntryOfEight,
    LongEntryOfNineOrMore,
    /// The entry's sheet has over 65,536 bytes.
    HugeEntry,
    /// Its key is longer than a text may be.
    LongKey,
    /// The sheet has an entry with its key.
    LongEntryFound,
    /// A put in which a match that reads the empty text comes up so often in one
    /// part of a repeat.
    EmptyMatches30,
    EmptyMatches100,
    /// At least 30, and an old entry is of their child.
    EmptyMatchesWithOld,
    /// At least 30, and all old entries are of other children.
    EmptyMatchesOldOfOtherChild,
    /// A put onto an old text of a right arm with a sheet of both arms.
    KeptRightArm,
    /// Within a right arm that was kept in the same way; and a match is in one of
    /// the arms.
    KeptRightArmTwice,
    KeptRightArmTwiceOverAMatch,
    KeptRightArmInARepeat,
    /// A match is in one of the arms.
    KeptRightArmOverAMatch,
    /// The sheet is not of the old arm, and a match is in one of the arms.
    CrossedOverAMatch,
    /// A repeat that holds a match has some old parts and more sheet parts.
    MorePartsThanOld,
    /// It has some sheet parts and more old parts.
    FewerPartsThanOld,
    /// A key with no union below its match finds an old entry.
    FoundWithoutUnion,
    /// There is a union, and the entry is of its left arm, of a right arm.
    FoundOfLeftArm,
    FoundOfRightArm,
    /// Two old entries of one child have keys of the same bytes, which are not empty.
    EqualKeys,
    /// Their keys differ in the last byte only, or in that one has one more.
    KeysApartAtTheEnd,
    /// The keys of all old entries come to over 16,384 bytes.
    LongKeys,
    /// One of the entries is found.
    LongKeysFound,
    /// An old entry has a key of such a length.
    KeyAt4095To4097,
    /// Keys of two old entries of one child differ by trailing spaces only.
    KeysApartBySpaces,
    /// An old key that ends in spaces has such a length without them.
    TrimmedAt4095To4097,
    /// An old entry is found whose key has more or fewer trailing spaces, and none that
    /// is left has the bytes of the sheet's key.
    FoundByTrimmedKey,
    /// Such an entry is found, though a later one has these bytes.
    PaddedOneBeforeTheSame,
    /// The sheet's key has more trailing spaces than that of the entry found, has fewer.
    KeyGainsSpaces,
    KeyLosesSpaces,
    /// A key of spaces finds an entry with the empty key, or the other way round, or one
    /// with another number of spaces.
    SpacesMeetTheEmptyKey,
    /// The key of the entry found is longer than a text may be.
    LongPaddedKeyFound,
    /// Nothing is found, though a key differs by tabs, and spaces that are not at its end.
    ApartByOtherBlanks,
    /// The first 4,096 bytes of an old key would be found, but another byte than a space
    /// follows.
    LongKeyCutAsked,
    /// A key part ends in spaces, and key text follows.
    SpaceAtTheSeam,

    // Calls of clash.
    /// No clash exists.
    NoClash,
    /// One is shown with 7, 8, 9, 10, 11.
    SourceJoinShown,
    SheetJoinShown,
    UnionShown,
    SourceRepeatShown,
    SheetRepeatShown,
    /// It is longer than the buffer; and longer than other texts can be.
    ClashTooLong,
    ClashTooLongAndHuge,
    /// The text is empty, has over 64 bytes, has over 4,096.
    EmptyClash,
    ClashOver64,
    ClashOver4096,
    /// The text has more than two cuts, so that the two smallest need not be those by
    /// which it was found.
    ThreeCuts,
    /// The second end is the whole text.
    EndAtTheEnd,
    /// The arms of the union are one node; the first has the higher number.
    UnionOfOneChild,
    UnionTurned,
    /// Two classes of several runs share a byte of the text, and none in the first run of
    /// one of them.
    SharedInALaterRun,
    /// Another text of the same length has two cuts, or is of both arms: with one byte
    /// of the text raised.
    HigherTextToo,

    // Puts that give a result, by what became of the entries.
    /// An entry was made, was dropped; some were kept, some made, some dropped.
    EntryMade,
    EntryDropped,
    KeptMadeAndDropped,
    /// A match that read no bytes of the sheet took an old entry, took none.
    EmptyEntryKept,
    EmptyEntryMade,
    /// More entries were made than a byte counts, than two bytes count.
    MadeOver255,
    MadeOver65535,
    /// The sheet's entries are of several children.
    EntriesOfSeveralChildren,
    /// The arms that were taken have more or fewer entries than the arms that read
    /// the sheet where no old source decides.
    EntriesByOtherArms,
    /// Old entries were left of a child that no match asked for.
    DroppedUnasked,
}

impl Kind {
    pub const ALL: [Kind; 106] = [
        Kind::UnionsTwoDeep,
        Kind::UnionsThreeDeep,
        Kind::UnionsOnTheLeft,
        Kind::UnionsOnTheRight,
        Kind::UnionsInAMatch,
        Kind::UnionsInARepeat,
        Kind::EmptyLeaf,
        Kind::EmptySourceLeaf,
        Kind::EmptySheetLeaf,
        Kind::Deep20,
        Kind::Deep60,
        Kind::DeepOnTheLeft20,
        Kind::DeepOnTheRight20,
        Kind::JoinOfMatches,
        Kind::JoinOfOneChild,
        Kind::UnionOfMatches,
        Kind::RepeatOfAMatch,
        Kind::RepeatOfMatchOrRemark,
        Kind::RepeatOfTwoMatches,
        Kind::Sets,
        Kind::SetOfOnePair,
        Kind::SetOf32Pairs,
        Kind::SetOutOfOrder,
        Kind::SetOverlapping,
        Kind::SetOfEveryByte,
        Kind::SetAtThePoolsEnd,
        Kind::SetAt448,
        Kind::ManySetsOfOnePart,
        Kind::HullsMeetOnly,
        Kind::SetOfNoneOrTooMany,
        Kind::SetOutsideThePool,
        Kind::SetReversed,
        Kind::SetReversedLater,
        Kind::SetForAWord,
        Kind::SetsAndAClash,
        Kind::SheetOfBothArms,
        Kind::OldRightArmLikeLeft,
        Kind::DeepShortText,
        Kind::DeepLongText,
        Kind::ChoicesAt63To65,
        Kind::ChoicesAt127To129,
        Kind::ChoicesAt4095To4096,
        Kind::LongEntry,
        Kind::LongEntryOfEight,
        Kind::LongEntryOfNineOrMore,
        Kind::HugeEntry,
        Kind::LongKey,
        Kind::LongEntryFound,
        Kind::EmptyMatches30,
        Kind::EmptyMatches100,
        Kind::EmptyMatchesWithOld,
        Kind::EmptyMatchesOldOfOtherChild,
        Kind::KeptRightArm,
        Kind::KeptRightArmTwice,
        Kind::KeptRightArmTwiceOverAMatch,
        Kind::KeptRightArmInARepeat,
        Kind::KeptRightArmOverAMatch,
        Kind::CrossedOverAMatch,
        Kind::MorePartsThanOld,
        Kind::FewerPartsThanOld,
        Kind::FoundWithoutUnion,
        Kind::FoundOfLeftArm,
        Kind::FoundOfRightArm,
        Kind::EqualKeys,
        Kind::KeysApartAtTheEnd,
        Kind::LongKeys,
        Kind::LongKeysFound,
        Kind::KeyAt4095To4097,
        Kind::KeysApartBySpaces,
        Kind::TrimmedAt4095To4097,
        Kind::FoundByTrimmedKey,
        Kind::PaddedOneBeforeTheSame,
        Kind::KeyGainsSpaces,
        Kind::KeyLosesSpaces,
        Kind::SpacesMeetTheEmptyKey,
        Kind::LongPaddedKeyFound,
        Kind::ApartByOtherBlanks,
        Kind::LongKeyCutAsked,
        Kind::SpaceAtTheSeam,
        Kind::NoClash,
        Kind::SourceJoinShown,
        Kind::SheetJoinShown,
        Kind::UnionShown,
        Kind::SourceRepeatShown,
        Kind::SheetRepeatShown,
        Kind::ClashTooLong,
        Kind::ClashTooLongAndHuge,
        Kind::EmptyClash,
        Kind::ClashOver64,
        Kind::ClashOver4096,
        Kind::ThreeCuts,
        Kind::EndAtTheEnd,
        Kind::UnionOfOneChild,
        Kind::UnionTurned,
        Kind::SharedInALaterRun,
        Kind::HigherTextToo,
        Kind::EntryMade,
        Kind::EntryDropped,
        Kind::KeptMadeAndDropped,
        Kind::EmptyEntryKept,
        Kind::EmptyEntryMade,
        Kind::MadeOver255,
        Kind::MadeOver65535,
        Kind::EntriesOfSeveralChildren,
        Kind::EntriesByOtherArms,
        Kind::DroppedUnasked,
    ];

    /// Whether it tells what became of the entries in a put.
    pub fn is_of_tally(self) -> bool {
        self >= Kind::EntryMade
    }
}

/// How many programs and how many calls were of each kind. A program is of a kind of
/// calls if one of its calls is.
#[derive(Clone, Debug, Default)]
pub struct Census {
    programs: BTreeMap<Kind, usize>,
    calls: BTreeMap<Kind, usize>,
}

impl Census {
    pub fn programs(&self, kind: Kind) -> usize {
        self.programs.get(&kind).copied().unwrap_or(0)
    }

    pub fn calls(&self, kind: Kind) -> usize {
        self.calls.get(&kind).copied().unwrap_or(0)
    }

    pub fn add(&mut self, other: &Census) {
        for kind in Kind::ALL {
            *self.programs.entry(kind).or_default() += other.programs(kind);
            *self.calls.entry(kind).or_default() += other.calls(kind);
        }
    }

    /// Notes the calls of one program with their answers.
    pub fn note(&mut self, calls: &[(Case, Answer)]) {
        let Some((first, _)) = calls.first() else { return };
        self.note_clashes(&first.table, calls);
        let program = match Program::read(&first.table) {
            Ok(program) => program,
            Err(refusal) => return self.note_refused(&sets::refusal_kinds(&first.table, refusal), calls.len()),
        };
        let mut facts = Facts::of(&program);
        facts.kinds.extend(sets::program_kinds(&first.table, &program, &reached(&program)));
        let mut met = facts.kinds.clone();
        for (case, answer) in calls.iter().filter(|(case, answer)| has_legal_texts(case, answer)) {
            let mut of_call = call_kinds(&program, &facts, case);
            // A refusal has no tally.
            of_call.retain(|kind| answer.is_ok() || !kind.is_of_tally());
            for kind in facts.kinds.iter().chain(&of_call) {
                *self.calls.entry(*kind).or_default() += 1;
            }
            met.extend(of_call);
        }
        met.sort_unstable();
        met.dedup();
        for kind in met {
            *self.programs.entry(kind).or_default() += 1;
        }
    }

    fn note_clashes(&mut self, table: &[u8], calls: &[(Case, Answer)]) {
        let mut met = BTreeSet::new();
        for (_, answer) in calls.iter().filter(|(case, _)| case.call == Call::Clash) {
            let of_call = clashes::clash_kinds(table, answer);
            for kind in &of_call {
                *self.calls.entry(*kind).or_default() += 1;
            }
            met.extend(of_call);
        }
        for kind in met {
            *self.programs.entry(kind).or_default() += 1;
        }
    }

    fn note_refused(&mut self, kinds: &[Kind], calls: usize) {
        for &kind in kinds {
            *self.programs.entry(kind).or_default() += 1;
            *self.calls.entry(kind).or_default() += calls;
        }
    }
}

impl fmt::Display for Census {
    fn fmt(&self, f: &mut fmt::Formatter<'_>) -> fmt::Result {
        for kind in Kind::ALL {
            let name = format!("{kind:?}");
            writeln!(f, "{name:>27}: {:>6} programs, {:>7} calls", self.programs(kind), self.calls(kind))?;
        }
        Ok(())
    }
}

fn has_legal_texts(case: &Case, answer: &Answer) -> bool {
    !matches!(case.call, Call::Check | Call::Clash)
        && answer.map_or_else(|refusal| refusal.number == RESULT_TOO_LONG, |_| true)
}

/// What is worked out once for a program.
struct Facts {
    /// Whether a node is a union whose arms' sheets overlap.
    overlaps: Vec<bool>,
    /// The most such unions on one way down from a node.
    union_depths: Vec<usize>,
    /// Whether a union is at or below a node.
    has_union: Vec<bool>,
    /// The children of the matches at and below a node.
    matched: Vec<BTreeSet<usize>>,
    depth: usize,
    left_depth: usize,
    right_depth: usize,
    /// The kinds that the program itself is of.
    kinds: Vec<Kind>,
}

impl Facts {
    fn of(program: &Program) -> Facts {
        let overlaps: Vec<bool> = (0..=program.root()).map(|node| sheets_overlap(program, node)).collect();
        let union_depths = heights(program, &|node, _| usize::from(overlaps[node]));
        let to_root = |weight: &dyn Fn(usize, usize) -> usize| heights(program, weight)[program.root()];
        let is_pair = |node| program.node(node).children().len() == 2;
        let depth = to_root(&|_, _| 1);
        let left_depth = to_root(&|node, operand| usize::from(is_pair(node) && operand == 0));
        let right_depth = to_root(&|node, operand| usize::from(is_pair(node) && operand == 1));
        let is_union = |node, _| usize::from(matches!(program.node(node), Node::LensUnion(..)));
        let has_union = heights(program, &is_union).into_iter().map(|unions| unions > 0).collect();
        let (matched, kinds) = (matched_children(program), Vec::new());
        let mut facts = Facts { overlaps, union_depths, has_union, matched, depth, left_depth, right_depth, kinds };
        facts.kinds = Kind::ALL.into_iter().filter(|&kind| facts.shows(program, kind)).collect();
        facts
    }

    /// Whether a program is of a kind of programs.
    fn shows(&self, program: &Program, kind: Kind) -> bool {
        let any = |holds: &dyn Fn(&Node) -> bool| reached(program).into_iter().any(|node| holds(program.node(node)));
        let is_overlapping = |union: usize| self.overlaps[union];
        let nested = |arm_of: fn(&Node) -> Option<usize>| {
            let unions = reached(program).into_iter().filter(|&node| is_overlapping(node));
            unions.filter_map(|node| arm_of(program.node(node))).any(is_overlapping)
        };
        let repeats = |holds: &dyn Fn(&Node) -> bool| {
            any(&|node| matches!(*node, Node::LensRepeat(part) if holds(program.node(part))))
        };
        let union_depth = self.union_depths[program.root()];
        match kind {
            Kind::UnionsTwoDeep => union_depth >= 2,
            Kind::UnionsThreeDeep => union_depth >= 3,
            Kind::UnionsOnTheLeft => nested(|node| node.children().first().copied()),
            Kind::UnionsOnTheRight => nested(|node| node.children().get(1).copied()),
            Kind::UnionsInAMatch => any(&|node| matches!(*node, Node::Match(a) if self.union_depths[a] >= 2)),
            Kind::UnionsInARepeat => any(&|node| matches!(*node, Node::LensRepeat(a) if self.union_depths[a] >= 2)),
            Kind::EmptyLeaf => has_leaf(program, |source, sheet| source == 0 && sheet == 0),
            Kind::EmptySourceLeaf => has_leaf(program, |source, sheet| source == 0 && sheet > 0),
            Kind::EmptySheetLeaf => has_leaf(program, |source, sheet| source > 0 && sheet == 0),
            Kind::Deep20 => self.depth >= 20,
            Kind::Deep60 => self.depth >= 60,
            Kind::DeepOnTheLeft20 => self.left_depth >= 20,
            Kind::DeepOnTheRight20 => self.right_depth >= 20,
            Kind::JoinOfMatches => any(&|node| self.joins_matches(node)),
            Kind::JoinOfOneChild => any(&|node| self.joins_one_child(node)),
            Kind::UnionOfMatches => any(&|node| self.union_holds(node) == Some([true; 2])),
            Kind::RepeatOfAMatch => repeats(&|part| matches!(part, Node::Match(_))),
            Kind::RepeatOfMatchOrRemark => repeats(&|part| self.union_holds(part).is_some_and(|[a, b]| a != b)),
            Kind::RepeatOfTwoMatches => repeats(&|part| self.joins_matches(part)),
            _ => false,
        }
    }

    fn joins_matches(&self, node: &Node) -> bool {
        matches!(*node, Node::LensJoin(a, b) if !self.matched[a].is_empty() && !self.matched[b].is_empty())
    }

    fn joins_one_child(&self, node: &Node) -> bool {
        matches!(*node, Node::LensJoin(a, b) if !self.matched[a].is_disjoint(&self.matched[b]))
    }

    /// Whether the arms of a union hold a match.
    fn union_holds(&self, node: &Node) -> Option<[bool; 2]> {
        match *node {
            Node::LensUnion(a, b) => Some([a, b].map(|arm| !self.matched[arm].is_empty())),
            _ => None,
        }
    }
}

fn matched_children(program: &Program) -> Vec<BTreeSet<usize>> {
    let mut matched: Vec<BTreeSet<usize>> = Vec::new();
    for node in 0..=program.root() {
        let children = program.node(node).children();
        let mut below: BTreeSet<usize> = children.iter().flat_map(|&child| matched[child].clone()).collect();
        if let Node::Match(child) = *program.node(node) {
            below.insert(child);
        }
        matched.push(below);
    }
    matched
}

fn sheets_overlap(program: &Program, node: usize) -> bool {
    match *program.node(node) {
        Node::LensUnion(a, b) => overlap(program.automaton(a, Side::Sheet), program.automaton(b, Side::Sheet)),
        _ => false,
    }
}

/// For each lens the greatest sum of weights on a way down; a step has a weight
/// by the node that it leaves and the operand that it takes.
fn heights(program: &Program, weight: &dyn Fn(usize, usize) -> usize) -> Vec<usize> {
    let mut heights: Vec<usize> = Vec::new();
    for node in 0..=program.root() {
        let children = program.node(node).children().into_iter().enumerate();
        let lenses = children.filter(|&(_, child)| program.node(child).is_lens());
        let height = lenses.map(|(operand, child)| weight(node, operand) + heights[child]).max();
        heights.push(height.unwrap_or(0));
    }
    heights
}

/// The nodes that the root is made of.
fn reached(program: &Program) -> Vec<usize> {
    let mut is_reached = vec![false; program.root() + 1];
    is_reached[program.root()] = true;
    // Children have lower numbers, so a parent is always met first.
    for node in (0..=program.root()).rev() {
        let children = if is_reached[node] { program.node(node).children() } else { Vec::new() };
        for child in children {
            is_reached[child] = true;
        }
    }
    (0..=program.root()).filter(|&node| is_reached[node]).collect()
}

fn has_leaf(program: &Program, holds: fn(usize, usize) -> bool) -> bool {
    reached(program).into_iter().any(|node| {
        let is_leaf = matches!(program.node(node), Node::Copy(_) | Node::Key(_) | Node::Const { .. });
        let measure = &program.table().measures[node];
        is_leaf && holds(measure.source_positions, measure.sheet_positions)
    })
}

/// The kinds of a call with legal texts.
fn call_kinds(program: &Program, facts: &Facts, case: &Case) -> Vec<Kind> {
    let mut kinds = Vec::new();
    if facts.union_depths[program.root()] >= 2 {
        kinds.extend(union_kinds(program, facts, case));
    }
    if facts.depth >= 20 {
        let longest = case.source.len().max(case.sheet.len());
        kinds.extend((longest <= 8).then_some(Kind::DeepShortText));
        kinds.extend((longest >= 100).then_some(Kind::DeepLongText));
    }
    kinds.extend(choice_kinds(program, case));
    if case.call == Call::Put {
        kinds.extend(entry_kinds(program, case));
        kinds.extend(puts::put_kinds(program, &facts.has_union, case));
    }
    kinds
}

fn has_side(call: Call, side: Side) -> bool {
    match side {
        Side::Source => call != Call::Create,
        Side::Sheet => call != Call::Get,
    }
}

fn union_kinds(program: &Program, facts: &Facts, case: &Case) -> Vec<Kind> {
    let (mut of_both, mut like_left) = (false, false);
    let arms = |node: usize| match *program.node(node) {
        Node::LensUnion(a, b) if facts.overlaps[node] => Some((a, b)),
        _ => None,
    };
    if has_side(case.call, Side::Sheet) {
        program.each_part(Side::Sheet, &case.sheet, &mut |node, text| {
            let fits = |arm| program.fits(arm, Side::Sheet, text);
            of_both = of_both || arms(node).is_some_and(|(a, b)| fits(a) && fits(b));
        });
    }
    if case.call == Call::Put {
        program.each_part(Side::Source, &case.source, &mut |node, text| {
            like_left = like_left || arms(node).is_some_and(|(a, b)| is_shown_as_left(program, a, b, text));
        });
    }
    let found = [(of_both, Kind::SheetOfBothArms), (like_left, Kind::OldRightArmLikeLeft)];
    found.into_iter().filter(|(holds, _)| *holds).map(|(_, kind)| kind).collect()
}

fn is_shown_as_left(program: &Program, left: usize, right: usize, source: &[u8]) -> bool {
    if program.fits(left, Side::Source, source) {
        return false;
    }
    let mut sheet = Vec::new();
    program.get_at(right, source, &mut sheet);
    program.fits(left, Side::Sheet, &sheet)
}

fn choice_kinds(program: &Program, case: &Case) -> Vec<Kind> {
    let mut kinds = Vec::new();
    for side in SIDES.into_iter().filter(|&side| has_side(case.call, side)) {
        let text = if side == Side::Source { &case.source } else { &case.sheet };
        let kind = match text.len() {
            63..=65 => Kind::ChoicesAt63To65,
            127..=129 => Kind::ChoicesAt127To129,
            4095..=4096 => Kind::ChoicesAt4095To4096,
            _ => continue,
        };
        if !kinds.contains(&kind) && program.automaton(program.root(), side).has_choices(text) {
            kinds.push(kind);
        }
    }
    kinds
}

fn entry_kinds(program: &Program, case: &Case) -> Vec<Kind> {
    let positions = program.table().measures[program.root()].sheet_positions;
    if positions * case.source.len().max(1) <= MAX_TEXT {
        return Vec::new();
    }
    let (mut count, mut longest, mut long_ones) = (0, 0, Vec::new());
    program.each_part(Side::Source, &case.source, &mut |node, text| {
        let Node::Match(child) = *program.node(node) else { return };
        let mut sheet = Vec::new();
        program.get_at(child, text, &mut sheet);
        count += 1;
        longest = longest.max(sheet.len());
        if sheet.len() > MAX_TEXT {
            long_ones.push((child, program.key(child, &sheet)));
        }
    });
    if long_ones.is_empty() {
        return Vec::new();
    }
    let facts = [
        (true, Kind::LongEntry),
        (count == 8, Kind::LongEntryOfEight),
        (count > 8, Kind::LongEntryOfNineOrMore),
        (longest > 1 << 16, Kind::HugeEntry),
        (long_ones.iter().any(|(_, key)| key.len() > MAX_TEXT), Kind::LongKey),
        (asks_for_one_of(program, &case.sheet, &long_ones), Kind::LongEntryFound),
    ];
    facts.into_iter().filter(|(holds, _)| *holds).map(|(_, kind)| kind).collect()
}

fn asks_for_one_of(program: &Program, sheet: &[u8], entries: &[(usize, Vec<u8>)]) -> bool {
    let mut asks = false;
    program.each_part(Side::Sheet, sheet, &mut |node, text| {
        if let Node::Match(child) = *program.node(node) {
            let key = program.key(child, text);
            asks = asks || entries.iter().any(|(of, long)| *of == child && trimmed(long) == trimmed(&key));
        }
    });
    asks
}
