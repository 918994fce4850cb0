//! Lucorphane's calls on slices, safe. A program of yours takes this file and `build.rs`, which says where
//! `libcapi.a` is; include/lucorphane.h says what each call does, how positions are numbered, and what the
//! refusals mean.
//!
//! ```
//! use bench::lucorphane::{Automaton, DELAYED};
//!
//! let moves = [0, 0, 1, 1, 0, 0];
//! let automaton = Automaton { n: 2, k: 1, start: 0, accept: &[0, 1], moves: &moves };
//! let mut table = vec![0; automaton.positions(DELAYED)?];
//! assert_eq!(automaton.settle(DELAYED, &mut table)?, 4);
//! let mut related = [0; 4];
//! assert_eq!(automaton.relation(DELAYED, &table, &mut related)?, 4);
//! assert_eq!(automaton.settle(256, &mut table).unwrap_err().number, 8);
//! # Ok::<(), bench::lucorphane::Refusal>(())
//! ```

use std::fmt;

/// The modes' numbers.
pub const ORDINARY: u64 = 0;
pub const DIRECT: u64 = 1;
pub const DELAYED: u64 = 2;
pub const FAIR: u64 = 3;

/// The library as C sees it.
pub mod c {
    /// What every call returns.
    #[repr(C)]
    #[derive(Clone, Copy, Debug, PartialEq, Eq)]
    pub struct Answer {
        pub number: u64,
        pub place: u64,
        pub value: [u64; 3],
    }

    type Bytes = *const u8;

    #[rustfmt::skip]
    #[link(name = "capi", kind = "static")]
    extern "C" {
        pub fn lucorphane_check(n: u64, k: u64, start: u64, accept: Bytes, accept_len: usize, moves: Bytes, moves_len: usize)
            -> Answer;
        pub fn lucorphane_positions(n: u64, k: u64, mode: u64) -> Answer;
        pub fn lucorphane_ceiling(n: u64, k: u64, start: u64, accept: Bytes, accept_len: usize, moves: Bytes, moves_len: usize,
            mode: u64) -> Answer;
        pub fn lucorphane_clear(n: u64, k: u64, start: u64, accept: Bytes, accept_len: usize, moves: Bytes, moves_len: usize,
            mode: u64, table: *mut u32, table_len: usize) -> Answer;
        pub fn lucorphane_lift(n: u64, k: u64, start: u64, accept: Bytes, accept_len: usize, moves: Bytes, moves_len: usize,
            mode: u64, table: *mut u32, table_len: usize, position: usize) -> Answer;
        pub fn lucorphane_settle(n: u64, k: u64, start: u64, accept: Bytes, accept_len: usize, moves: Bytes, moves_len: usize,
            mode: u64, table: *mut u32, table_len: usize) -> Answer;
        pub fn lucorphane_rest(n: u64, k: u64, start: u64, accept: Bytes, accept_len: usize, moves: Bytes, moves_len: usize,
            mode: u64, table: *const u32, table_len: usize) -> Answer;
        pub fn lucorphane_relation(n: u64, k: u64, start: u64, accept: Bytes, accept_len: usize, moves: Bytes, moves_len: usize,
            mode: u64, table: *const u32, table_len: usize, out: *mut u8, out_len: usize) -> Answer;
        pub fn lucorphane_reply(n: u64, k: u64, start: u64, accept: Bytes, accept_len: usize, moves: Bytes, moves_len: usize,
            mode: u64, table: *const u32, table_len: usize, position: usize) -> Answer;
        pub fn lucorphane_quotient(n: u64, k: u64, start: u64, accept: Bytes, accept_len: usize, moves: Bytes, moves_len: usize,
            mode: u64, table: *mut u32, table_len: usize, classes: *mut u8, classes_len: usize, marks: *mut u8,
            marks_len: usize, moves_out: *mut u8, moves_out_len: usize) -> Answer;
    }
}

/// A refused call: the number of the refusal and its place. Nothing was written.
#[derive(Clone, Copy, Debug, PartialEq, Eq)]
pub struct Refusal {
    pub number: u64,
    pub place: u64,
}

impl fmt::Display for Refusal {
    fn fmt(&self, f: &mut fmt::Formatter) -> fmt::Result {
        write!(f, "refused with number {}, place {}", self.number, self.place)
    }
}

impl std::error::Error for Refusal {}

/// What `rest` says of a table.
#[derive(Clone, Copy, Debug, PartialEq, Eq)]
pub enum Rest {
    AtRest,
    /// The lowest position that a lift would raise.
    Restless(usize),
}

/// The counts of a quotient, and the class of the start.
#[derive(Clone, Copy, Debug, PartialEq, Eq)]
pub struct Merged {
    pub classes: usize,
    pub moves: usize,
    pub start: usize,
}

/// An automaton in lent bytes: a mark (0 or 1) a state; three bytes (from, letter, to) a move, ascending.
/// It need not be sound, nor a mode or a length right: the calls refuse what is not.
#[derive(Clone, Copy, Debug)]
pub struct Automaton<'a> {
    pub n: u64,
    pub k: u64,
    pub start: u64,
    pub accept: &'a [u8],
    pub moves: &'a [u8],
}

fn accepted(answer: c::Answer) -> Result<c::Answer, Refusal> {
    match answer.number {
        0 => Ok(answer),
        number => Err(Refusal { number, place: answer.place }),
    }
}

/// A call on an automaton and what else it takes.
macro_rules! call {
    ($call:ident, $a:expr $(, $more:expr)*) => {
        // SAFETY: each pointer comes from a slice, with its length after it, and a slice lent to be written
        // to overlaps no other.
        accepted(unsafe {
            c::$call($a.n, $a.k, $a.start, $a.accept.as_ptr(), $a.accept.len(), $a.moves.as_ptr(), $a.moves.len() $(, $more)*)
        })
    };
}

impl Automaton<'_> {
    /// Whether the automaton is sound.
    pub fn check(&self) -> Result<(), Refusal> {
        call!(lucorphane_check, self).map(|_| ())
    }

    /// P, the length of a table.
    pub fn positions(&self, mode: u64) -> Result<usize, Refusal> {
        // SAFETY: no pointer is handed over.
        accepted(unsafe { c::lucorphane_positions(self.n, self.k, mode) }).map(|a| a.value[0] as usize)
    }

    /// T, the largest entry of a table, which means lost.
    pub fn ceiling(&self, mode: u64) -> Result<u32, Refusal> {
        call!(lucorphane_ceiling, self, mode).map(|a| a.value[0] as u32)
    }

    /// Fills the table with 0.
    pub fn clear(&self, mode: u64, table: &mut [u32]) -> Result<(), Refusal> {
        call!(lucorphane_clear, self, mode, table.as_mut_ptr(), table.len()).map(|_| ())
    }

    /// Lifts one position; whether its entry rose.
    pub fn lift(&self, mode: u64, table: &mut [u32], position: usize) -> Result<bool, Refusal> {
        call!(lucorphane_lift, self, mode, table.as_mut_ptr(), table.len(), position).map(|a| a.value[0] == 1)
    }

    /// Clears the table and sweeps it until it is at rest; the number of raises.
    pub fn settle(&self, mode: u64, table: &mut [u32]) -> Result<u64, Refusal> {
        call!(lucorphane_settle, self, mode, table.as_mut_ptr(), table.len()).map(|a| a.value[0])
    }

    /// Whether the table is at rest.
    pub fn rest(&self, mode: u64, table: &[u32]) -> Result<Rest, Refusal> {
        call!(lucorphane_rest, self, mode, table.as_ptr(), table.len()).map(|a| match a.value[0] {
            1 => Rest::AtRest,
            _ => Rest::Restless(a.place as usize),
        })
    }

    /// Writes the relation that a table at rest tells, n·n bytes; the number of ones.
    pub fn relation(&self, mode: u64, table: &[u32], out: &mut [u8]) -> Result<usize, Refusal> {
        call!(lucorphane_relation, self, mode, table.as_ptr(), table.len(), out.as_mut_ptr(), out.len())
            .map(|a| a.value[0] as usize)
    }

    /// The state that Blue moves to at a Duplicator's position, by a table at rest.
    pub fn reply(&self, mode: u64, table: &[u32], position: usize) -> Result<usize, Refusal> {
        call!(lucorphane_reply, self, mode, table.as_ptr(), table.len(), position).map(|a| a.value[0] as usize)
    }

    /// Settles the table and merges the states of which each simulates the other, in mode 1 or 2: the class of each state,
    /// a mark for each class, and the moves between classes. Modes 0 and 3 are refused, with 17.
    pub fn quotient(
        &self,
        mode: u64,
        table: &mut [u32],
        classes: &mut [u8],
        marks: &mut [u8],
        moves_out: &mut [u8],
    ) -> Result<Merged, Refusal> {
        call!(
            lucorphane_quotient, self, mode, table.as_mut_ptr(), table.len(), classes.as_mut_ptr(), classes.len(),
            marks.as_mut_ptr(), marks.len(), moves_out.as_mut_ptr(), moves_out.len()
        )
        .map(|a| Merged { classes: a.value[0] as usize, moves: a.value[1] as usize, start: a.value[2] as usize })
    }
}
