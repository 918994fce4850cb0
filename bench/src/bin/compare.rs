//! Holds the library against the model, call by call: numbers, places, values, and every byte of every lent
//! buffer, after refusals too. Exit status 1 on the first difference.
//!
//! Short automata are compared in full, also through the safe wrappers; then the benchmark's families, small;
//! then long automata, which are settled only where few sweeps are enough for it.

use bench::automaton::{Automaton, Draw};
use bench::calls::{through_c, through_wrappers, Answer, Call, Lent, CALLS};
use bench::families::FAMILIES;
use bench::game::Game;
use bench::{drawn, model};
use std::process::exit;

const SEED: u64 = 20;
const SHORT: usize = 4000;
const LONG: usize = 60;
const LONG_SWEEPS: usize = 20;

struct Comparison {
    automata: usize,
    calls: usize,
    /// How often each call was refused with each number; at 0, how often it was accepted.
    seen: [[usize; 18]; 10],
}

/// Ends the comparison with what differs.
fn differs(way: &str, call: Call, lent: &Lent, answers: [Answer; 2], left: &Lent, expected: &Lent) -> ! {
    eprintln!("{call:?} through {way} differs from the model.");
    eprintln!("library: {:?}", answers[0]);
    eprintln!("model:   {:?}", answers[1]);
    let bytes = |l: &Lent| [&l.accept, &l.moves, &l.relation, &l.classes, &l.marks, &l.moves_out].map(Vec::clone);
    let names = ["accept", "moves", "relation", "classes", "marks", "moves_out"];
    for ((name, seen), right) in names.iter().zip(bytes(left)).zip(bytes(expected)) {
        if let Some(i) = (0..seen.len()).find(|&i| seen[i] != right[i]) {
            eprintln!("{name}[{i}] is {}, by the model {}", seen[i], right[i]);
        }
    }
    if let Some(i) = (0..left.table.len()).find(|&i| left.table[i] != expected.table[i]) {
        eprintln!("table[{i}] is {}, by the model {}", left.table[i], expected.table[i]);
    }
    if lent.moves.len() < 1000 {
        eprintln!("lent: {lent:?}");
    } else {
        eprintln!("lent: n {} k {} start {} mode {} position {}", lent.n, lent.k, lent.start, lent.mode, lent.position);
    }
    exit(1)
}

impl Comparison {
    /// Makes the call of the library and of the model, which leaves in `lent` what it writes.
    fn same(&mut self, call: Call, lent: &mut Lent) {
        let before = lent.clone();
        let right = model::answer(call, lent);
        let mut left = before.clone();
        match through_c(call, &mut left) {
            Some(answer) if answer == right && left == *lent => {}
            Some(answer) => differs("C", call, &before, [answer, right], &left, lent),
            None => {
                eprintln!("{call:?} wrote outside of a buffer: {before:?}");
                exit(1);
            }
        }
        self.calls += 1;
        self.seen[call as usize][right.number as usize] += 1;
        if lent.table.len() < 2000 {
            let mut left = before.clone();
            let answer = through_wrappers(call, &mut left);
            if answer != right || left != *lent {
                differs("the wrappers", call, &before, [answer, right], &left, lent);
            }
            self.calls += 1;
        }
    }

    /// The calls that read a table at rest.
    fn at_rest(&mut self, draw: &mut Draw, lent: &mut Lent, replies: usize) {
        self.same(Call::Rest, lent);
        self.same(Call::Relation, lent);
        for _ in 0..replies {
            lent.position = draw.below(lent.table.len());
            self.same(Call::Reply, lent);
        }
    }

    /// Lifts in any order from the cleared table, and what may be asked before it is at rest.
    fn lifts(&mut self, draw: &mut Draw, lent: &mut Lent, count: usize) {
        self.same(Call::Clear, lent);
        for _ in 0..count {
            lent.position = draw.below(lent.table.len());
            self.same(Call::Lift, lent);
        }
        self.at_rest(draw, lent, 1);
    }

    /// A sound automaton, then the same damaged. Calls that settle a table are left out if `settles` is false.
    fn automaton(&mut self, draw: &mut Draw, auto: &Automaton, mode: u8, settles: bool, effort: usize) {
        self.automata += 1;
        let game = Game::new(auto.n, auto.k, &auto.accept, &auto.moves, mode.into());
        let mut lent = drawn::lent(draw, auto, mode);
        for call in [Call::Check, Call::Positions, Call::Ceiling, Call::Lift, Call::Rest, Call::Relation, Call::Reply] {
            self.same(call, &mut lent);
        }
        if settles {
            self.same(Call::Quotient, &mut lent);
        }
        self.lifts(draw, &mut lent, 3 * effort);
        if settles {
            self.same(Call::Settle, &mut lent);
            self.at_rest(draw, &mut lent, 2 * effort);
            // a table at rest that is not the least one
            for _ in 0..2 {
                let v = draw.below(lent.table.len());
                lent.table[v] = draw.below(game.top as usize + 1) as u32;
            }
            game.sweep_to_rest(&mut lent.table);
        } else {
            lent.table.fill(game.top);
        }
        self.at_rest(draw, &mut lent, effort);
        for _ in 0..effort {
            let mut damaged = lent.clone();
            for _ in 0..1 + draw.below(3) {
                drawn::damage(draw, &mut damaged, game.top);
            }
            for call in CALLS {
                let work = call == Call::Settle || call == Call::Quotient;
                if settles || !work || model::refusal(call, &damaged).is_some() {
                    self.same(call, &mut damaged.clone());
                }
            }
        }
    }
}

fn main() {
    let mut draw = Draw::new(SEED);
    let mut comparison = Comparison { automata: 0, calls: 0, seen: [[0; 18]; 10] };
    for i in 0..SHORT {
        let (n, k) = (1 + draw.below(6), 1 + draw.below(3));
        let auto = drawn::automaton(&mut draw, n, k);
        comparison.automaton(&mut draw, &auto, (i % 4) as u8, true, 6);
    }
    for n in 8..12 {
        for family in &FAMILIES {
            for mode in 0..4 {
                comparison.automaton(&mut draw, &family.at(n), mode, true, 2);
            }
        }
    }
    for i in 0..LONG {
        let n = [64, 63, 33, 32, 31, 17][draw.below(6)];
        let k = [1, 2, 3, 7, 16, 16][i % 6];
        let auto = drawn::automaton(&mut draw, n, k);
        let mode = draw.below(4) as u8;
        let game = Game::new(n, k, &auto.accept, &auto.moves, mode.into());
        let settles = game.settles_within(LONG_SWEEPS);
        comparison.automaton(&mut draw, &auto, mode, settles, 2);
    }
    for call in CALLS {
        for number in model::refusals(call).into_iter().chain([0]).filter(|&number| number != 15) {
            if comparison.seen[call as usize][number as usize] == 0 {
                eprintln!("{call:?} never gave number {number}: the comparison is too weak");
                exit(1);
            }
        }
    }
    println!("{} automata, {} calls: no difference", comparison.automata, comparison.calls);
}
