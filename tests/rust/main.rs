//! Holds the archive libthwartpin.a against an independent program: all rotas listed, all chains by length and dictionary order, books by a
//! reader of its own. Each comparison is one call with its number and every item of every area, guard zones included.
//! 'compare SEED' takes another seed. 'compare --watched [SEED]' takes one in so many lists and books, in areas without guard zones, for a checker of
//! memory, under which the whole would take too long. The last line is 'N passed, M failed'.

mod answers;
mod areas;
mod books;
mod cases;
mod face;
mod lists;
mod meaning;
mod planted;
mod random;
mod refusals;
mod rotas;
mod small;
mod table;

use cases::Tally;
use std::time::Instant;

/// What is left of a whole run takes some seconds under such a checker.
const WATCHED: usize = 50;

type Group = (&'static str, fn(&mut Tally));

const GROUPS: [Group; 14] = [
    ("the marked table", table::marked_table),
    ("every list of few words", small::every_short_list),
    ("every list that is one rule longer", small::every_longer_list),
    ("random lists up to 12 choices", |tally| small::random_lists(tally, 13_000)),
    ("lists of up to 2,048 rules", |tally| small::most_rules(tally, 600)),
    ("lists of up to 256 choices", |tally| small::wide_lists(tally, 400)),
    ("the longest chains", small::longest_chains),
    ("every set of faults", |tally| refusals::every_set_of_faults(tally, 12)),
    ("every place and length", |tally| {
        refusals::every_place(tally);
        refusals::every_length(tally);
    }),
    ("the listed books", books::given_books),
    ("short books", books::short_books),
    ("damaged books", books::damaged_books),
    ("random books", |tally| books::random_books(tally, 200_000)),
    ("the longest books", |tally| books::long_books(tally, 24)),
];

fn run(tally: &mut Tally, (name, group): &Group) {
    let (start, before) = (Instant::now(), tally.passed + tally.failed);
    group(tally);
    let calls = tally.passed + tally.failed - before;
    println!("{calls:>9} calls, {:>5.1} s: {name}", start.elapsed().as_secs_f64());
}

fn main() {
    let mut words = std::env::args().skip(1).peekable();
    let watched = words.next_if_eq("--watched").is_some();
    let seed = words.next().map_or(1, |word| word.parse().expect("a seed is a number"));
    let mut tally = Tally::new(seed);
    if watched {
        areas::drop_guards();
        tally.one_in = WATCHED;
    }
    GROUPS.iter().for_each(|group| run(&mut tally, group));
    let planted = planted::every_fault(seed);
    println!("{} faults planted in expected answers, {} reported", planted.planted, planted.reported);
    println!("{} comparisons, of {} numbers, bytes, words and values in all", tally.passed + tally.failed, tally.items);
    let enough = watched || tally.passed + tally.failed >= 1_000_000;
    if !enough {
        println!("FAILED fewer than a million comparisons");
    }
    let failed = tally.failed + planted.planted - planted.reported + u64::from(!enough);
    println!("{} passed, {failed} failed", tally.passed + planted.reported);
    std::process::exit(i32::from(failed > 0));
}
