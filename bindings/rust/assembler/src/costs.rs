//! What a program costs in nodes, and a node in size and positions.
//!
//! Short forms make many nodes of few words, so a limit can be passed without
//! seeing where. The messages here name the lines and operands that cost most.

use crate::assembly::Assembled;
use crate::display::Parts;
use crate::draft::MAX_NODES;
use crate::kinds::{by_byte, CONST, RANGE, SET, WORD};

pub const MAX_SIZE: usize = 512;
pub const MAX_POSITIONS: usize = 128;

/// A program with more nodes is not read on. It is far beyond what anyone would
/// mend, and the memory for it has to end somewhere.
pub(crate) const MOST_COUNTED: usize = 10_000;

/// So many costs are told apart, and the others taken together.
const MOST_NAMED: usize = 10;

/// A line that defines a name.
pub(crate) struct Line {
    pub line: usize,
    pub name: String,
    /// How many nodes stand above.
    pub first_node: usize,
}

/// A program with so many nodes has too many: which lines make them.
pub(crate) fn too_many(lines: &[Line], total: usize) -> String {
    let ends = lines.iter().skip(1).map(|line| line.first_node).chain([total]);
    let mut costs: Vec<(&Line, usize)> =
        lines.iter().zip(ends).map(|(line, end)| (line, end - line.first_node)).collect();
    costs.sort_by_key(|&(_, nodes)| std::cmp::Reverse(nodes));
    let costly = costs.iter().take(MOST_NAMED).filter(|&&(_, nodes)| nodes > 1).count();
    // A single one is told no shorter without its name.
    let is_one_left = costs.len() == costly + 1;
    let (named, others) = costs.split_at(costly + usize::from(is_one_left));

    let count = if total > MOST_COUNTED { "more than 10,000".to_string() } else { total.to_string() };
    let mut told: Vec<String> =
        named.iter().map(|(line, nodes)| format!("line {} ({}) {nodes}", line.line, line.name)).collect();
    if let Some(first) = named.first() {
        told[0] = format!("line {} ({}) makes {}", first.0.line, first.0.name, first.1);
    }
    let told = with_others(told.join(", "), others.len(), &others_make(others, named.is_empty()));
    format!("the program has {count} nodes, and {MAX_NODES} are the most: {told}")
}

fn others_make(others: &[(&Line, usize)], are_all: bool) -> String {
    let nodes: usize = others.iter().map(|&(_, nodes)| nodes).sum();
    let make = if are_all { "make " } else { "" };
    if nodes == others.len() {
        format!("{} lines {make}1 each", others.len())
    } else {
        format!("{} lines {make}{nodes} together", others.len())
    }
}

fn with_others(named: String, count: usize, others: &str) -> String {
    match (named.is_empty(), count) {
        (_, 0) => named,
        (true, _) => others.to_string(),
        (false, _) => format!("{named} and {others}"),
    }
}

/// What the limits of a node speak of.
#[derive(Clone, Copy, Debug, PartialEq, Eq)]
enum Measure {
    /// Every node counts, as often as it is used.
    Size,
    Source,
    Sheet,
}

/// What a node costs in size and positions, with the operands that bring it
/// there; for the refusal 5. None if the node is within the limits or does not
/// exist.
///
/// If the node only holds a part of a row or a suffix together, the whole row is
/// told of, since that is what stands in the text.
pub fn too_large(assembled: &Assembled, node: usize) -> Option<String> {
    let parts = Parts::of(&assembled.table).ok()?;
    let nodes = parts.kinds.len();
    if node >= nodes || assembled.origins.len() != nodes || assembled.is_inner.len() != nodes {
        return None;
    }
    let bill = |measure| Bill::new(&parts, assembled, measure);
    let (size, source, sheet) = (bill(Measure::Size), bill(Measure::Source), bill(Measure::Sheet));
    let most_positions = source.costs[node].max(sheet.costs[node]);
    if size.costs[node] <= MAX_SIZE && most_positions <= MAX_POSITIONS {
        return None;
    }
    let whole = size.whole(node);
    let called = format!("'{}' has", assembled.origins[whole].words);
    let mut told = Vec::new();
    let (in_source, in_sheet) = (source.costs[whole], sheet.costs[whole]);
    if in_source.max(in_sheet) > MAX_POSITIONS && source.operands(whole) == sheet.operands(whole) {
        let positions = format!("{in_source} positions in the source and {in_sheet} in the sheet");
        told.push(format!("{called} {positions}, and {MAX_POSITIONS} are the most{}", source.told(whole)));
    } else {
        for (bill, side) in [(&source, "source"), (&sheet, "sheet")] {
            if bill.costs[whole] > MAX_POSITIONS {
                let positions = format!("{} positions in the {side}", bill.costs[whole]);
                told.push(format!("{called} {positions}, and {MAX_POSITIONS} are the most{}", bill.told(whole)));
            }
        }
    }
    if size.costs[whole] > MAX_SIZE {
        told.push(format!("{called} the size {}, and {MAX_SIZE} is the most{}", size.costs[whole], size.told(whole)));
    }
    Some(told.join("\n"))
}

/// What every node costs by one measure.
struct Bill<'a> {
    parts: &'a Parts<'a>,
    assembled: &'a Assembled,
    measure: Measure,
    costs: Vec<usize>,
}

/// An operand, how often it stands there, and what it costs each time.
#[derive(Clone, Copy, Debug, PartialEq, Eq)]
struct Item {
    node: usize,
    times: usize,
    cost: usize,
}

impl Item {
    fn total(&self) -> usize {
        self.times.saturating_mul(self.cost)
    }
}

impl<'a> Bill<'a> {
    fn new(parts: &'a Parts<'a>, assembled: &'a Assembled, measure: Measure) -> Bill<'a> {
        let mut bill = Bill { parts, assembled, measure, costs: Vec::new() };
        for node in 0..parts.kinds.len() {
            let own = match (parts.kinds[node], measure) {
                (_, Measure::Size) | (RANGE | SET, _) => 1,
                (WORD, _) => usize::from(parts.operands[3 * node + 2]),
                _ => 0,
            };
            let below = bill.counted(node).map(|child| bill.costs[child]);
            let cost = below.fold(own, usize::saturating_add);
            bill.costs.push(cost);
        }
        bill
    }

    /// The children that count by this measure, once for each operand. An
    /// operand that is not lower is none: the engine refuses it before.
    fn counted(&self, node: usize) -> impl Iterator<Item = usize> + 'a {
        let kind = self.parts.kinds[node];
        let children = by_byte(kind).map_or(0, |kind| kind.shape.children());
        let counted = match (kind, self.measure) {
            // The default counts on neither side.
            (CONST, Measure::Source) => 0..1,
            (CONST, Measure::Sheet) => 1..2,
            _ => 0..children,
        };
        let operands = &self.parts.operands[3 * node..3 * node + 3];
        operands[counted].iter().map(|&child| usize::from(child)).filter(move |&child| child < node)
    }

    /// The node that the whole row or suffix makes of which this node is a part.
    fn whole(&self, node: usize) -> usize {
        let origins = &self.assembled.origins;
        let holds = |parent: usize, child: usize| {
            origins[parent].name == origins[child].name && self.counted(parent).any(|operand| operand == child)
        };
        (node + 1..self.costs.len()).fold(node, |whole, parent| {
            let goes_on = self.assembled.is_inner[whole] && holds(parent, whole);
            if goes_on {
                parent
            } else {
                whole
            }
        })
    }

    /// The operands of a row or suffix, costliest first. Those that cost nothing
    /// are left out.
    fn operands(&self, whole: usize) -> Vec<Item> {
        let mut times = vec![0usize; whole + 1];
        times[whole] = 1;
        let mut items = Vec::new();
        for node in (0..=whole).rev().filter(|&node| self.costs[node] > 0) {
            if node != whole && !self.assembled.is_inner[node] {
                items.push(Item { node, times: times[node], cost: self.costs[node] });
                continue;
            }
            for child in self.counted(node) {
                times[child] = times[child].saturating_add(times[node]);
            }
        }
        items.retain(|item| item.times > 0);
        items.sort_by_key(|item| (std::cmp::Reverse(item.total()), item.node));
        items
    }

    /// The operands, as the end of a sentence.
    fn told(&self, whole: usize) -> String {
        let items = self.operands(whole);
        let (named, others) = items.split_at(items.len().min(MOST_NAMED));
        let mut told: Vec<String> = named.iter().map(|item| self.item(item)).collect();
        if !others.is_empty() {
            let rest = others.iter().map(Item::total).fold(0, usize::saturating_add);
            told.push(format!("{} others {rest} together", others.len()));
        }
        let named = items.iter().map(Item::total).fold(0, usize::saturating_add);
        let own = self.costs[whole].saturating_sub(named);
        if own > 0 && !items.is_empty() {
            told.push(format!("the nodes over them {own}"));
        }
        if told.is_empty() {
            String::new()
        } else {
            format!(": {}", told.join("; "))
        }
    }

    fn item(&self, item: &Item) -> String {
        let origin = &self.assembled.origins[item.node];
        let called = format!("'{}' (line {})", origin.words, origin.line);
        if item.times == 1 {
            format!("{called} {}", item.cost)
        } else {
            format!("{} times {called}, {} each", item.times, item.cost)
        }
    }
}
