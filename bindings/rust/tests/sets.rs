//! Classes that are not one run (kind 5), by the linked engine: the cases of document
//! 02 and by hand. (`tests/compare.rs` compares sets of all sorts with the reference.)

mod common;
#[path = "../reference/tests/common/set_cases.rs"]
mod set_cases;

use common::{with_stack, Engine};

#[test]
fn cases_by_hand() {
    with_stack(|| set_cases::all().iter().for_each(|case| case.make(&Engine)));
}
