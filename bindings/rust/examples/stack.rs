//! Prints the stack that calls take, in bytes, for programs that take much of
//! it. `tests/stack.rs` holds the same figures to what is promised.
//!
//! `cargo run --release --example stack`, in the folder of this package.

#[path = "../tests/common/stack.rs"]
mod stack;

fn main() {
    println!("| Program | check | get | put | create |\n|---|---|---|---|---|");
    for case in stack::cases() {
        let figures = stack::CALLS.map(|call| grouped(case.stack_of(call)));
        println!("| {} | {} |", case.name, figures.join(" | "));
    }
    println!("\n| Program | clash |\n|---|---|");
    for case in stack::clash_cases() {
        println!("| {} | {} |", case.name, grouped(case.stack()));
    }
    println!("\n| Import and export | stack |\n|---|---|");
    for case in stack::afm_cases() {
        println!("| {} | {} |", case.name, grouped(case.stack()));
    }
}

/// A number with commas, by thousands.
fn grouped(number: usize) -> String {
    if number < 1000 {
        return number.to_string();
    }
    format!("{},{:03}", grouped(number / 1000), number % 1000)
}
