//! The ten calls with all that they may be lent in one record, so that the library and the model can be given
//! the same and be compared in every byte.

use crate::lucorphane::{c, Automaton, Refusal, Rest};
pub use c::Answer;

#[derive(Clone, Copy, Debug, PartialEq, Eq)]
pub enum Call {
    Check,
    Positions,
    Ceiling,
    Clear,
    Lift,
    Settle,
    Rest,
    Relation,
    Reply,
    Quotient,
}

pub const CALLS: [Call; 10] = [
    Call::Check,
    Call::Positions,
    Call::Ceiling,
    Call::Clear,
    Call::Lift,
    Call::Settle,
    Call::Rest,
    Call::Relation,
    Call::Reply,
    Call::Quotient,
];

/// An automaton, a mode, a position, and the buffers of every call.
#[derive(Clone, Debug, PartialEq, Eq)]
pub struct Lent {
    pub n: u64,
    pub k: u64,
    pub start: u64,
    pub mode: u64,
    pub position: usize,
    pub accept: Vec<u8>,
    pub moves: Vec<u8>,
    pub table: Vec<u32>,
    pub relation: Vec<u8>,
    pub classes: Vec<u8>,
    pub marks: Vec<u8>,
    pub moves_out: Vec<u8>,
}

/// A buffer with a fence on either side. The fences' odd length gives bytes an odd address.
struct Fenced<T> {
    all: Vec<T>,
}

const FENCE: usize = 61;

impl<T: Copy + PartialEq> Fenced<T> {
    fn new(post: T, inner: &[T]) -> Fenced<T> {
        let mut all = vec![post; FENCE];
        all.extend_from_slice(inner);
        all.resize(inner.len() + 2 * FENCE, post);
        Fenced { all }
    }

    fn len(&self) -> usize {
        self.all.len() - 2 * FENCE
    }

    /// Where the buffer begins; null if it is empty, which the header allows.
    fn pointer(&mut self) -> *mut T {
        if self.len() == 0 {
            return std::ptr::null_mut();
        }
        self.all[FENCE..].as_mut_ptr()
    }

    /// The buffer, copied into `inner`; whether both fences stand.
    fn back(&self, post: T, inner: &mut [T]) -> bool {
        let (front, rest) = self.all.split_at(FENCE);
        let (middle, end) = rest.split_at(inner.len());
        inner.copy_from_slice(middle);
        front.iter().chain(end).all(|&x| x == post)
    }
}

const POST: u8 = 0xc5;
const WIDE_POST: u32 = 0xc5c5_c5c5;

/// The library's answer through C; what it leaves in the buffers is put into `lent`. Nothing if it wrote outside
/// of a buffer.
pub fn through_c(call: Call, lent: &mut Lent) -> Option<Answer> {
    let Lent { n, k, start, mode, position, .. } = *lent;
    let mut table = Fenced::new(WIDE_POST, &lent.table);
    let (t, t_len) = (table.pointer(), table.len());
    let mut bytes = [&lent.accept, &lent.moves, &lent.relation, &lent.classes, &lent.marks, &lent.moves_out]
        .map(|inner| Fenced::new(POST, inner));
    let lengths = bytes.each_ref().map(Fenced::len);
    let [accept, moves, out, classes, marks, moves_out] = bytes.each_mut().map(Fenced::pointer);
    let [accept_len, moves_len, out_len, classes_len, marks_len, moves_out_len] = lengths;
    macro_rules! on_automaton {
        ($call:ident $(, $more:expr)*) => {
            c::$call(n, k, start, accept, accept_len, moves, moves_len $(, $more)*)
        };
    }
    // SAFETY: each pointer is of a buffer of its own, and its length stands after it.
    let answer = unsafe {
        match call {
            Call::Check => on_automaton!(lucorphane_check),
            Call::Positions => c::lucorphane_positions(n, k, mode),
            Call::Ceiling => on_automaton!(lucorphane_ceiling, mode),
            Call::Clear => on_automaton!(lucorphane_clear, mode, t, t_len),
            Call::Lift => on_automaton!(lucorphane_lift, mode, t, t_len, position),
            Call::Settle => on_automaton!(lucorphane_settle, mode, t, t_len),
            Call::Rest => on_automaton!(lucorphane_rest, mode, t, t_len),
            Call::Relation => on_automaton!(lucorphane_relation, mode, t, t_len, out, out_len),
            Call::Reply => on_automaton!(lucorphane_reply, mode, t, t_len, position),
            Call::Quotient => on_automaton!(
                lucorphane_quotient, mode, t, t_len, classes, classes_len, marks, marks_len, moves_out, moves_out_len
            ),
        }
    };
    let inners =
        [&mut lent.accept, &mut lent.moves, &mut lent.relation, &mut lent.classes, &mut lent.marks, &mut lent.moves_out];
    let mut stand = table.back(WIDE_POST, &mut lent.table);
    for (fenced, inner) in bytes.iter().zip(inners) {
        stand &= fenced.back(POST, inner);
    }
    stand.then_some(answer)
}

/// What a wrapper gave, as the answer that it comes from.
fn told(result: Result<(u64, [u64; 3]), Refusal>) -> Answer {
    match result {
        Ok((place, value)) => Answer { number: 0, place, value },
        Err(refusal) => Answer { number: refusal.number, place: refusal.place, value: [0; 3] },
    }
}

/// The library's answer through the safe wrappers.
pub fn through_wrappers(call: Call, lent: &mut Lent) -> Answer {
    let Lent { n, k, start, mode, position, accept, moves, table, relation, classes, marks, moves_out } = lent;
    let (mode, position) = (*mode, *position);
    let automaton = Automaton { n: *n, k: *k, start: *start, accept, moves };
    let one = |value: u64| (0, [value, 0, 0]);
    told(match call {
        Call::Check => automaton.check().map(|_| one(0)),
        Call::Positions => automaton.positions(mode).map(|p| one(p as u64)),
        Call::Ceiling => automaton.ceiling(mode).map(|t| one(t.into())),
        Call::Clear => automaton.clear(mode, table).map(|_| one(0)),
        Call::Lift => automaton.lift(mode, table, position).map(|rose| one(rose.into())),
        Call::Settle => automaton.settle(mode, table).map(one),
        Call::Rest => automaton.rest(mode, table).map(|rest| match rest {
            Rest::AtRest => one(1),
            Rest::Restless(lowest) => (lowest as u64, [0; 3]),
        }),
        Call::Relation => automaton.relation(mode, table, relation).map(|ones| one(ones as u64)),
        Call::Reply => automaton.reply(mode, table, position).map(|state| one(state as u64)),
        Call::Quotient => automaton
            .quotient(mode, table, classes, marks, moves_out)
            .map(|m| (0, [m.classes as u64, m.moves as u64, m.start as u64])),
    })
}
