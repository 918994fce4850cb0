//! What the comparison lends the calls, drawn: sound automata, and damage of every kind that is refused.

use crate::automaton::{Automaton, Draw};
use crate::calls::Lent;

/// A sound automaton of n states and k letters: from no moves to every move, from no accepting state to all.
pub fn automaton(draw: &mut Draw, n: usize, k: usize) -> Automaton {
    let moves_of_16 = match draw.below(6) {
        0 => 0,
        1 => 16,
        2 => 5,
        _ => 1 + 24 / n,
    };
    let marks_of_8 = [0, 1, 2, 4, 4, 6, 7, 8][draw.below(8)];
    let mut moves = vec![];
    for q in 0..n {
        for a in 0..k {
            for r in 0..n {
                if draw.below(16) < moves_of_16 {
                    moves.extend([q as u8, a as u8, r as u8]);
                }
            }
        }
    }
    let accept = (0..n).map(|_| (draw.below(8) < marks_of_8) as u8).collect();
    Automaton { n, k, start: draw.below(n), accept, moves }
}

/// The automaton and a mode, with buffers of the right lengths that hold anything; every other table keeps to T.
pub fn lent(draw: &mut Draw, auto: &Automaton, mode: u8) -> Lent {
    let positions = auto.positions(mode);
    let end = [auto.ceiling(mode) as usize + 1, 1 << 32][draw.below(2)];
    let mut bytes = |length: usize| (0..length).map(|_| draw.next() as u8).collect::<Vec<u8>>();
    let (relation, classes, marks, moves_out) =
        (bytes(auto.n * auto.n), bytes(auto.n), bytes(auto.n), bytes(auto.moves.len()));
    Lent {
        n: auto.n as u64,
        k: auto.k as u64,
        start: auto.start as u64,
        mode: mode.into(),
        position: draw.below(positions),
        accept: auto.accept.clone(),
        moves: auto.moves.clone(),
        table: (0..positions).map(|_| draw.below(end) as u32).collect(),
        relation,
        classes,
        marks,
        moves_out,
    }
}

/// A number near the right one, or one that is right if it is cut to fewer bits.
fn off(draw: &mut Draw, right: u64) -> u64 {
    match draw.below(7) {
        0 => 0,
        1 => right.wrapping_sub(1),
        2 => right + 1,
        3 => right + (1 << 8),
        4 => right + (1 << 32),
        5 => right + (1 << 40),
        _ => u64::MAX,
    }
}

/// A buffer one shorter, one longer, empty or far too long.
fn stretch<T: Copy>(draw: &mut Draw, buffer: &mut Vec<T>, filler: T) {
    let length = match draw.below(4) {
        0 => buffer.len().saturating_sub(1),
        1 => buffer.len() + 1,
        2 => 0,
        _ => buffer.len() + 300,
    };
    buffer.resize(length, filler);
}

/// A place in a buffer, if it has one.
fn place<T>(draw: &mut Draw, buffer: &[T]) -> Option<usize> {
    (!buffer.is_empty()).then(|| draw.below(buffer.len()))
}

/// Damages one thing; the largest entry allowed is `top`. Some damage comes to nothing.
pub fn damage(draw: &mut Draw, lent: &mut Lent, top: u32) {
    let past = draw.below(3) as u8;
    match draw.below(18) {
        0 => lent.n = [0, 65, off(draw, lent.n)][draw.below(3)],
        1 => lent.k = [0, 17, off(draw, lent.k)][draw.below(3)],
        2 => lent.start = [lent.n, off(draw, lent.start)][draw.below(2)],
        3 => lent.mode = [4, off(draw, lent.mode)][draw.below(2)],
        4 => stretch(draw, &mut lent.accept, 0),
        5 => {
            if let Some(i) = place(draw, &lent.accept) {
                lent.accept[i] = [2, 128, 255][draw.below(3)];
            }
        }
        6 => {
            stretch(draw, &mut lent.moves, 0);
            lent.moves_out.resize(lent.moves.len(), 7);
        }
        7 => stretch(draw, &mut lent.moves_out, 7),
        8 => {
            if let Some(i) = place(draw, &lent.moves) {
                let end = if i % 3 == 1 { lent.k } else { lent.n };
                lent.moves[i] = (end as u8).saturating_add(past);
            }
        }
        9 => {
            // a move takes the place of another
            if let (Some(i), Some(j)) = (place(draw, &lent.moves), place(draw, &lent.moves)) {
                let (i, j) = (i / 3 * 3, j / 3 * 3);
                if i.max(j) + 3 <= lent.moves.len() {
                    lent.moves.copy_within(i..i + 3, j);
                }
            }
        }
        10 => stretch(draw, &mut lent.table, 0),
        11 => {
            if let Some(i) = place(draw, &lent.table) {
                lent.table[i] = [top + 1, u32::MAX][draw.below(2)];
            }
        }
        12 | 13 => {
            // an entry below what it asks for
            if let Some(i) = place(draw, &lent.table) {
                lent.table[i] = lent.table[i].saturating_sub(1);
            }
        }
        14 => lent.position = [lent.table.len(), off(draw, lent.position as u64) as usize][draw.below(2)],
        15 => stretch(draw, &mut lent.relation, 7),
        16 => stretch(draw, &mut lent.classes, 7),
        _ => stretch(draw, &mut lent.marks, 7),
    }
}
