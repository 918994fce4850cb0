//! The stack that each call needs, measured at the limits: 64 states and 16 letters.
//!
//! The call runs on a thread whose stack was filled with a pattern, and how far down it was overwritten is looked
//! up after. Two patterns, so that a byte which happens to hold the one shows in the other. The wrapper's own frame
//! is counted too.

use bench::automaton::{Automaton, Builder, MODES};
use bench::calls::{Call, CALLS};
use bench::lucorphane;
use std::alloc::{alloc, dealloc, Layout};
use std::ffi::c_void;
use std::hint::black_box;
use std::ptr::null_mut;

const SIZE: usize = 1 << 22;
const PATTERNS: [u8; 2] = [0xa5, 0x5a];

/// `pthread_attr_t` of 64-bit Linux has 56 bytes.
#[repr(C, align(16))]
struct Attributes([u8; 64]);

extern "C" {
    fn pthread_attr_init(attributes: *mut Attributes) -> i32;
    fn pthread_attr_setstack(attributes: *mut Attributes, stack: *mut c_void, size: usize) -> i32;
    fn pthread_attr_destroy(attributes: *mut Attributes) -> i32;
    fn pthread_create(
        thread: *mut usize,
        attributes: *const Attributes,
        start: extern "C" fn(*mut c_void) -> *mut c_void,
        argument: *mut c_void,
    ) -> i32;
    fn pthread_join(thread: usize, result: *mut *mut c_void) -> i32;
}

struct Job<'a> {
    call: &'a mut dyn FnMut(),
    /// The address where the stack stands before the call.
    begins: usize,
}

extern "C" fn run(job: *mut c_void) -> *mut c_void {
    // SAFETY: `measured` hands over its own Job and waits for the thread.
    let job = unsafe { &mut *(job as *mut Job) };
    let here = 0u8;
    job.begins = black_box(&here) as *const u8 as usize;
    (job.call)();
    null_mut()
}

/// How many bytes of a stack filled with the pattern the call overwrites.
fn measured(pattern: u8, call: &mut dyn FnMut()) -> usize {
    let layout = Layout::from_size_align(SIZE, 4096).unwrap();
    let mut job = Job { call, begins: 0 };
    let mut attributes = Attributes([0; 64]);
    let mut thread = 0;
    // SAFETY: the stack outlives the thread, which is waited for, and nothing else uses it before.
    unsafe {
        let stack = alloc(layout);
        assert!(!stack.is_null());
        stack.write_bytes(pattern, SIZE);
        assert!(pthread_attr_init(&mut attributes) == 0);
        assert!(pthread_attr_setstack(&mut attributes, stack as *mut c_void, SIZE) == 0);
        assert!(pthread_create(&mut thread, &attributes, run, &mut job as *mut Job as *mut c_void) == 0);
        assert!(pthread_join(thread, null_mut()) == 0);
        assert!(pthread_attr_destroy(&mut attributes) == 0);
        let untouched = (0..SIZE).take_while(|&i| *stack.add(i) == pattern).count();
        assert!(untouched > 0, "the call needs more than {SIZE} bytes");
        let lowest = stack as usize + untouched;
        dealloc(stack, layout);
        job.begins - lowest
    }
}

/// Every move; every state accepts.
fn all() -> Automaton {
    let mut b = Builder::new(64, 16);
    for q in 0..64 {
        b.accept(q);
        for a in 0..16 {
            for r in 0..64 {
                b.step(q, a, r);
            }
        }
    }
    b.finish(1)
}

/// Every move but from one state, which loops and alone does not accept: entries climb to T, which is 65 at most.
fn trap() -> Automaton {
    let mut b = Builder::new(64, 16);
    for a in 0..16 {
        b.step(63, a, 63);
        for q in 0..63 {
            b.accept(q);
            for r in 0..64 {
                b.step(q, a, r);
            }
        }
    }
    b.finish(1)
}

/// The bytes that each call in a mode overwrites, the greater over the patterns.
fn needed(auto: &Automaton, mode: u64) -> [usize; CALLS.len()] {
    let Automaton { n, k, start, accept, moves } = auto;
    let lent = lucorphane::Automaton { n: *n as u64, k: *k as u64, start: *start as u64, accept, moves };
    let mut table = vec![0; lent.positions(mode).unwrap()];
    lent.settle(mode, &mut table).unwrap();
    let top = lent.ceiling(mode).unwrap();
    let position = table.iter().rposition(|&entry| entry < top).unwrap();
    let settled = table.clone();
    let mut relation = vec![0; n * n];
    let (mut classes, mut marks, mut moves_out) = (vec![0; *n], vec![0; *n], vec![0; moves.len()]);
    CALLS.map(|call| {
        let mut run = || {
            let accepted = match call {
                Call::Check => lent.check().is_ok(),
                Call::Positions => lent.positions(mode).is_ok(),
                Call::Ceiling => lent.ceiling(mode).is_ok(),
                Call::Clear => lent.clear(mode, &mut table).is_ok(),
                Call::Lift => lent.lift(mode, &mut table, position).is_ok(),
                Call::Settle => lent.settle(mode, &mut table).is_ok(),
                Call::Rest => lent.rest(mode, &settled).is_ok(),
                Call::Relation => lent.relation(mode, &settled, &mut relation).is_ok(),
                Call::Reply => lent.reply(mode, &settled, position).is_ok(),
                Call::Quotient => lent.quotient(mode, &mut table, &mut classes, &mut marks, &mut moves_out).is_ok(),
            };
            let refused = call == Call::Quotient && (mode == 0 || mode == 3);
            if accepted == refused {
                std::process::abort();
            }
        };
        PATTERNS.map(|pattern| measured(pattern, &mut run)).into_iter().max().unwrap()
    })
}

fn main() {
    let automata = [all(), trap()];
    let bytes = [0, 1, 2, 3].map(|mode| automata.each_ref().map(|auto| needed(auto, mode)));
    println!(
        "## Stack

`cargo run --release --bin stack` in `bench/`: the bytes of stack that each call overwrites at 64 states and 16 letters, the caller's frame included. The greater of two automata: every move and every state accepting; and the same with one state that only loops and does not accept, so that entries climb to T. In ordinary and fair mode `quotient` is refused, with 17.

| call | {} |
|---|---|---|---|---|",
        MODES.join(" | ")
    );
    for (i, call) in CALLS.iter().enumerate() {
        let most = bytes.map(|[all, trap]| all[i].max(trap[i]).to_string());
        println!("| {} | {} |", format!("{call:?}").to_lowercase(), most.join(" | "));
    }
}
