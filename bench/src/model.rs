//! Every call as document 01 and docs/REFUSALS.md say it, in plain Rust, for the comparison.

use crate::calls::{Answer, Call, Lent};
use crate::game::{positions, Game};

/// The call's answer; what it writes is written into `lent`.
pub fn answer(call: Call, lent: &mut Lent) -> Answer {
    let (number, (place, value)) = match refusal(call, lent) {
        Some((number, place)) => (number, (place, [0; 3])),
        None => (0, accepted(call, lent)),
    };
    Answer { number, place: place as u64, value }
}

/// Number and place of the refusal, if the call is refused.
pub fn refusal(call: Call, lent: &Lent) -> Option<(u64, usize)> {
    refusals(call).into_iter().find_map(|number| Some((number, place_of(number, call, lent)?)))
}

/// The refusals that a call can give, in their order.
pub fn refusals(call: Call) -> Vec<u64> {
    match call {
        Call::Check => (1..=7).collect(),
        Call::Positions => vec![1, 2, 8],
        Call::Ceiling => (1..=8).collect(),
        Call::Clear | Call::Settle => (1..=9).collect(),
        Call::Rest => (1..=10).collect(),
        Call::Lift => (1..=11).collect(),
        Call::Relation => (1..=10).chain([12, 16]).collect(),
        Call::Reply => (1..=15).collect(),
        Call::Quotient => (1..=8).chain([17, 9, 16]).collect(),
    }
}

fn game_of(lent: &Lent) -> Game {
    Game::new(lent.n as usize, lent.k as usize, &lent.accept, &lent.moves, lent.mode)
}

fn size(lent: &Lent) -> usize {
    positions(lent.n as usize, lent.k as usize, lent.mode)
}

/// The place of a refusal, if it applies; the call gives none of those before it.
fn place_of(number: u64, call: Call, lent: &Lent) -> Option<usize> {
    let at_0 = |applies: bool| applies.then_some(0);
    let outside = |m: &[u8]| m[0] as u64 >= lent.n || m[2] as u64 >= lent.n || m[1] as u64 >= lent.k;
    let wrong = |buffer: &Vec<u8>, length: u64| buffer.len() as u64 != length;
    match number {
        1 => at_0(lent.n < 1 || lent.n > 64),
        2 => at_0(lent.k < 1 || lent.k > 16),
        3 if lent.accept.len() as u64 != lent.n => Some(lent.n as usize),
        3 => lent.accept.iter().position(|&mark| mark > 1),
        4 => at_0(lent.start >= lent.n),
        5 => at_0(lent.moves.len() % 3 != 0),
        6 => lent.moves.chunks_exact(3).position(outside),
        7 => {
            let steps: Vec<&[u8]> = lent.moves.chunks_exact(3).collect();
            steps.windows(2).position(|pair| pair[1] <= pair[0]).map(|before| before + 1)
        }
        8 => at_0(lent.mode > 3),
        9 => at_0(lent.table.len() != size(lent)),
        10 => {
            let top = game_of(lent).top;
            lent.table.iter().position(|&entry| entry > top)
        }
        11 => at_0(lent.position >= size(lent)),
        12 => game_of(lent).restless(&lent.table),
        13 => at_0(lent.position < game_of(lent).spoilers),
        14 => at_0(lent.table[lent.position] == game_of(lent).top),
        15 => at_0(game_of(lent).steps(lent.position).is_empty()),
        17 => at_0(lent.mode == 0 || lent.mode == 3),
        _ if call == Call::Relation => at_0(wrong(&lent.relation, lent.n * lent.n)),
        _ => at_0(
            wrong(&lent.classes, lent.n)
                || wrong(&lent.marks, lent.n)
                || wrong(&lent.moves_out, lent.moves.len() as u64),
        ),
    }
}

/// Place and values of an accepted call, and what it writes.
fn accepted(call: Call, lent: &mut Lent) -> (usize, [u64; 3]) {
    let one = |value: usize| (0, [value as u64, 0, 0]);
    match call {
        Call::Check => one(0),
        Call::Positions => one(size(lent)),
        Call::Ceiling => one(game_of(lent).top as usize),
        Call::Clear => {
            lent.table.fill(0);
            one(0)
        }
        Call::Lift => one(game_of(lent).lift(&mut lent.table, lent.position)),
        Call::Settle => one(game_of(lent).settle(&mut lent.table)),
        Call::Rest => match game_of(lent).restless(&lent.table) {
            None => one(1),
            Some(lowest) => (lowest, [0; 3]),
        },
        Call::Relation => {
            let game = game_of(lent);
            for q in 0..game.n {
                for p in 0..game.n {
                    lent.relation[q * game.n + p] = game.related(&lent.table, q, p) as u8;
                }
            }
            one(lent.relation.iter().filter(|&&byte| byte == 1).count())
        }
        Call::Reply => {
            let game = game_of(lent);
            let mut steps = game.steps(lent.position);
            let least = steps.iter().map(|&to| lent.table[to]).min();
            steps.retain(|&to| Some(lent.table[to]) == least);
            one(steps.iter().map(|to| to % game.n).min().unwrap())
        }
        Call::Quotient => {
            let game = game_of(lent);
            game.settle(&mut lent.table);
            (0, quotient(&game, lent))
        }
    }
}

/// Classes, marks and moves by the settled table; how many classes and moves, and the class of the start.
fn quotient(game: &Game, lent: &mut Lent) -> [u64; 3] {
    let equal = |q, p| game.related(&lent.table, q, p) && game.related(&lent.table, p, q);
    let mut leasts: Vec<usize> = vec![];
    for q in 0..game.n {
        let class = leasts.iter().position(|&least| equal(least, q)).unwrap_or(leasts.len());
        if class == leasts.len() {
            leasts.push(q);
        }
        lent.classes[q] = class as u8;
    }
    lent.marks.fill(255);
    lent.marks[..leasts.len()].fill(0);
    for q in 0..game.n {
        lent.marks[lent.classes[q] as usize] |= lent.accept[q];
    }
    let class = |q: u8| lent.classes[q as usize];
    let mut moves: Vec<[u8; 3]> = lent.moves.chunks_exact(3).map(|m| [class(m[0]), m[1], class(m[2])]).collect();
    moves.sort();
    moves.dedup();
    lent.moves_out.fill(255);
    lent.moves_out[..3 * moves.len()].copy_from_slice(&moves.concat());
    [leasts.len() as u64, moves.len() as u64, lent.classes[lent.start as usize] as u64]
}
