//! The linked engine as an implementation of the reference's calls.

use noontrough::{Answer, ClashAnswer, PutAnswer, Ways};
use noontrough_reference::{
    Answer as Expected, Calls, ClashAnswer as ExpectedClash, Put, PutAnswer as ExpectedPut, Refusal, Shown, Tally,
};

pub struct Engine;

fn as_reference(answer: Answer) -> Expected {
    match answer {
        Answer::Result { length } => Ok(length),
        Answer::Refusal { number, node } => Err(refusal(number, node)),
    }
}

fn put_as_reference(answer: PutAnswer) -> ExpectedPut {
    match answer {
        PutAnswer::Result { length, tally } => {
            let noontrough::Tally { kept, made, dropped } = tally;
            Ok(Put { length, tally: Tally { kept, made, dropped } })
        }
        PutAnswer::Refusal { number, node } => Err(refusal(number, node)),
    }
}

fn clash_as_reference(answer: ClashAnswer) -> ExpectedClash {
    match answer {
        ClashAnswer::NoClash => Ok(None),
        ClashAnswer::Clash(clash) => {
            let numbers = match clash.ways {
                Ways::Ends(early, late) => [early, late],
                Ways::Arms(a, b) => [a, b].map(|arm| usize::from(byte(arm))),
            };
            Ok(Some(Shown { rule: refusal(clash.number, clash.node), length: clash.text.len(), numbers }))
        }
        ClashAnswer::Refusal { number, node } => Err(refusal(number, node)),
    }
}

fn refusal(number: u64, node: u64) -> Refusal {
    Refusal { number: byte(number), node: byte(node) }
}

fn byte(number: u64) -> u8 {
    u8::try_from(number).expect("refusals and nodes are below 256")
}

impl Calls for Engine {
    fn check(&self, table: &[u8]) -> Expected {
        as_reference(noontrough::check(table))
    }

    fn get(&self, table: &[u8], source: &[u8], out: &mut [u8]) -> Expected {
        as_reference(noontrough::get(table, source, out))
    }

    fn put(&self, table: &[u8], sheet: &[u8], source: &[u8], out: &mut [u8]) -> ExpectedPut {
        put_as_reference(noontrough::put(table, sheet, source, out))
    }

    fn create(&self, table: &[u8], sheet: &[u8], out: &mut [u8]) -> Expected {
        as_reference(noontrough::create(table, sheet, out))
    }

    fn clash(&self, table: &[u8], out: &mut [u8]) -> ExpectedClash {
        clash_as_reference(noontrough::clash(table, out))
    }
}

/// Runs on a thread with the stack that the calls need and some for the test.
pub fn with_stack<T: Send + 'static>(work: impl FnOnce() -> T + Send + 'static) -> T {
    let thread = std::thread::Builder::new().stack_size(noontrough::STACK_BYTES + (8 << 20));
    thread.spawn(work).expect("a thread can be started").join().expect("the test holds")
}
