//! The parts of a text by the nodes that read them.

use crate::program::Program;
use crate::table::{Node, Side};

impl Program {
    /// Calls on `visit` with every lens that reads a part of a legal text, and
    /// with that part. On the sheet side the left arm reads what both can.
    pub fn each_part(&self, side: Side, text: &[u8], visit: &mut dyn FnMut(usize, &[u8])) {
        self.each_part_at(self.root(), side, text, visit);
    }

    /// The same for a text of any lens.
    pub fn each_part_at(&self, node: usize, side: Side, text: &[u8], visit: &mut dyn FnMut(usize, &[u8])) {
        visit(node, text);
        match *self.node(node) {
            Node::LensJoin(a, b) => {
                let (first, second) = self.cut(a, b, side, text);
                self.each_part_at(a, side, first, visit);
                self.each_part_at(b, side, second, visit);
            }
            Node::LensUnion(a, b) => {
                let arm = if self.fits(a, side, text) { a } else { b };
                self.each_part_at(arm, side, text, visit);
            }
            Node::LensRepeat(part) => {
                for range in self.parts(node, part, side, text) {
                    self.each_part_at(part, side, &text[range], visit);
                }
            }
            Node::Match(child) => self.each_part_at(child, side, text, visit),
            _ => {}
        }
    }
}
