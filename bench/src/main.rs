//! The benchmark: `cargo run --release` prints it as docs/PERFORMANCE.md has it.
//!
//! Options, each with a value: `--figure2`, `--naive` and `--counted`, the seconds that each of these may take for
//! one automaton and mode (300, 20 and 300); `--sizes` (16,32,64); `--family` and `--mode`, to run one only.
//!
//! Exit status 1 if a table or a count differs; a goal that is missed is printed only.

use bench::families::{Family, FAMILIES};
use bench::goals::{print_compared, print_goals, print_growth};
use bench::row::{Caps, Row, ALWAYS_NAIVE};

struct Options {
    caps: Caps,
    sizes: Vec<usize>,
    family: Option<String>,
    mode: Option<u8>,
}

fn usage(what: &str) -> ! {
    eprintln!("{what}; options: --figure2, --naive, --counted SECONDS; --sizes N,N; --family NAME; --mode NUMBER");
    std::process::exit(2)
}

fn parsed<T: std::str::FromStr>(value: &str) -> T {
    value.parse().unwrap_or_else(|_| usage(&format!("not a number: {value}")))
}

fn options() -> Options {
    let caps = Caps { figure2: 300.0, naive: 20.0, counted: 300.0 };
    let mut options = Options { caps, sizes: vec![16, 32, 64], family: None, mode: None };
    let mut args = std::env::args().skip(1);
    while let Some(option) = args.next() {
        let value = args.next().unwrap_or_else(|| usage(&format!("{option} has no value")));
        match option.as_str() {
            "--figure2" => options.caps.figure2 = parsed(&value),
            "--naive" => options.caps.naive = parsed(&value),
            "--counted" => options.caps.counted = parsed(&value),
            "--sizes" => options.sizes = value.split(',').map(parsed).collect(),
            "--family" => options.family = Some(value),
            "--mode" => options.mode = Some(parsed(&value)),
            _ => usage(&format!("unknown option {option}")),
        }
    }
    if !options.sizes.iter().all(|n| (8..=64).contains(n)) {
        usage("sizes are 8 to 64");
    }
    options
}

/// The processor's name, as the system tells it.
fn processor() -> String {
    let info = std::fs::read_to_string("/proc/cpuinfo").unwrap_or_default();
    let name = info.lines().find_map(|line| line.strip_prefix("model name")?.split_once(": "));
    name.map_or("not known".into(), |(_, name)| name.to_string())
}

fn print_notes(caps: Caps) {
    let arguments: Vec<String> = std::env::args().skip(1).collect();
    println!(
        "# Performance

`cargo run --release -- {arguments}` in `bench/`, after `tools/library.sh`. Processor: {processor}, one thread.

Times are seconds of the thread's processor time: the best of three under a second, one run above. Ratio is the library's time by Figure 2's. Each builds from the automaton's bytes what it needs, within the time. The library also checks the automaton, and its table is lent; the others trust the automaton and allocate their table.

- Figure 2 is the algorithm of document 001, first in first out, with the counts. It departs from the paper in three things: lost positions and dead ends, which the paper's games do not have, begin in the list, and idle ones never enter it; modes 0 and 1 are played by it too, with T = 1; and the edges are rows of offsets, not stored one by one. `>`: not done in {figure2} seconds; the ratio is then below what is printed.
- Naive is the defined settle, along rows of moves. It is here because it is faster than Figure 2 on some families. `>`: not done in {naive} seconds.
- Table: every entry is the one that Figure 2 leaves or, where that was not done, the naive sweep.
- Count: the raises are those of the naive sweep. Where it was not done, they are those of `counted`: the same sweeps without the lifts of positions none of whose successors rose since their last lift, which are at rest. Up to n = {always} the naive sweep always runs to its end, and `counted` is held against it.
- [families.rs](../bench/src/families.rs) says what each family is. Seeds are 1 but for random k 2. With most seeds that one settles in some ten sweeps; its seed is picked so that it climbs to T in modes 2 and 3, with 32 states and with 64.
",
        arguments = arguments.join(" "),
        processor = processor(),
        figure2 = caps.figure2,
        naive = caps.naive,
        always = ALWAYS_NAIVE,
    );
}

fn main() {
    let Options { caps, sizes, family, mode } = options();
    let wanted = |f: &&'static Family| family.as_ref().is_none_or(|name| name == f.name);
    print_notes(caps);
    println!("{}", Row::HEAD);
    let mut rows = vec![];
    for &n in &sizes {
        for family in FAMILIES.iter().filter(wanted) {
            for mode in (0..4).filter(|&m| mode.is_none_or(|only| only == m)) {
                let row = Row::run(family, n, mode, caps);
                println!("{}", row.line());
                rows.push(row);
            }
        }
    }
    println!("\n## Growth\n");
    print_growth(&rows);
    println!("\n## Goals\n");
    print_goals(&rows);
    print_compared(&rows);
    if rows.iter().any(Row::differs) {
        eprintln!("a table or a count differs");
        std::process::exit(1);
    }
}
