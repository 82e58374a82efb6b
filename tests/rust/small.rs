//! Every list of few choices and few words, and random lists of each kind up to 12 choices: every call on each.

use crate::answers::{Answers, Call};
use crate::cases::{Case, Tally};
use crate::lists::{self, KINDS};
use crate::meaning::{values, List};

const SPARE: [usize; 2] = [0, 5];

/// Every list of `len` words, each below `codes`.
fn every_list(len: usize, codes: usize) -> impl Iterator<Item = Vec<u16>> {
    let word = move |list: usize, at: usize| (list / codes.pow(at as u32) % codes) as u16;
    (0..codes.pow(len as u32)).map(move |list| (0..len).map(|at| word(list, at)).collect())
}

/// Codes too high by one and odd numbers of words are among them.
pub fn every_short_list(tally: &mut Tally) {
    for (n, longest) in [(0, 6), (1, 6), (2, 6), (3, 4)] {
        (0..=longest).flat_map(|len| every_list(len, 2 * n + 1)).for_each(|words| every_call(tally, n, &words));
    }
}

/// The lists of in-range codes that are one rule longer: with four rules two choices clash with no rule (c, c).
pub fn every_longer_list(tally: &mut Tally) {
    for (n, len) in [(1, 8), (2, 8), (3, 6)] {
        every_list(len, 2 * n).for_each(|words| every_call(tally, n, &words));
    }
}

fn answers(n: usize, words: &[u16]) -> Option<Answers> {
    let accepted = words.len() % 2 == 0 && words.iter().all(|&code| (code as usize) < 2 * n);
    accepted.then(|| Answers::of(&List { n, words: words.to_vec() }))
}

/// All calls with areas just long enough and longer, and Next from every rota, values over 1 included.
fn every_call(tally: &mut Tally, n: usize, words: &[u16]) {
    if !tally.takes() {
        return;
    }
    let answers = answers(n, words);
    check_chains(answers.as_ref());
    for spare in SPARE {
        plain_calls(tally, n, words, answers.as_ref(), spare);
    }
    let values = if answers.is_some() { 3 } else { 2 };
    for rota in every_list(n, values) {
        let rota: Vec<u8> = rota.iter().map(|&value| value as u8).collect();
        let spare = tally.random.pick(&SPARE);
        tally.hold(&Case::new(Call::Next, n, words, &rota, spare), answers.as_ref());
    }
}

/// All calls but Next.
pub fn plain_calls(tally: &mut Tally, n: usize, words: &[u16], answers: Option<&Answers>, spare: usize) {
    for call in [Call::Decide, Call::Forced, Call::Clash, Call::Ties] {
        tally.hold(&Case::new(call, n, words, &[], spare), answers);
    }
}

/// The chains are those that a search with no chain left out gives.
fn check_chains(answers: Option<&Answers>) {
    if let Some((list, v)) = answers.and_then(|answers| Some((&answers.list, answers.clash()?))) {
        for (from, to) in [(2 * v, 2 * v + 1), (2 * v + 1, 2 * v)] {
            assert_eq!(list.shortest(from, to), list.shortest_of_all(from, to), "chains of {list:?}");
        }
    }
}

pub fn random_lists(tally: &mut Tally, rounds: usize) {
    for round in 0..tally.part(rounds) {
        KINDS.iter().for_each(|(_, kind)| random_list(tally, round % 13, *kind));
    }
}

fn random_list(tally: &mut Tally, n: usize, kind: lists::Kind) {
    let list = lists::list(&mut tally.random, n, kind);
    let answers = Answers::of(&list);
    let spare = tally.random.below(4);
    plain_calls(tally, n, &list.words, Some(&answers), spare);
    some_next(tally, &answers);
    if n < 10 || tally.random.one_in(20) {
        walk(tally, &answers);
    }
    if tally.random.one_in(8) {
        agree(&list, &answers);
    }
}

/// Next from rotas of any kind, most of them not allowed.
fn some_next(tally: &mut Tally, answers: &Answers) {
    let n = answers.list.n;
    for _ in 0..12 {
        let rota = values(tally.random.below(1 << n) as u32, n);
        let spare = tally.random.below(4);
        tally.hold(&Case::new(Call::Next, n, &answers.list.words, &rota, spare), Some(answers));
    }
}

/// From the first rota by Next to the end: the sorted list of all rotas.
pub fn walk(tally: &mut Tally, answers: &Answers) {
    for rota in answers.walk() {
        tally.hold(&Case::new(Call::Next, answers.list.n, &answers.list.words, &rota, 0), Some(answers));
    }
}

/// Block by block comes to the same as all rotas at once.
fn agree(list: &List, answers: &Answers) {
    let blocks = Answers::by_blocks(list);
    let same = |call, rota: &[u8]| answers.outcome(call, rota).items == blocks.outcome(call, rota).items;
    assert!(same(Call::Decide, &[]) && same(Call::Forced, &[]), "blocks of {list:?}");
    let rotas = (0..1 << list.n).step_by(7).map(|rota| values(rota, list.n));
    assert!(rotas.into_iter().all(|rota| same(Call::Next, &rota)), "blocks of {list:?}");
}

/// Up to 256 choices and 2,048 rules, answered block by block.
pub fn wide_lists(tally: &mut Tally, rounds: usize) {
    for round in 0..tally.part(rounds) {
        let n = if round % 4 == 0 { 256 } else { tally.random.between(13, 256) };
        let list = lists::wide(&mut tally.random, n, round % 5 == 0);
        let answers = Answers::by_blocks(&list);
        plain_calls(tally, n, &list.words, Some(&answers), round % 3);
        wide_next(tally, &answers);
    }
}

fn wide_next(tally: &mut Tally, answers: &Answers) {
    let n = answers.list.n;
    let rotas: Vec<Vec<u8>> = answers.walk().take(4).collect();
    let strange = (0..4).map(|_| (0..n).map(|_| tally.random.below(2) as u8).collect());
    let strange: Vec<Vec<u8>> = strange.collect();
    for rota in rotas.iter().chain(&strange).chain([&vec![1; n]]) {
        tally.hold(&Case::new(Call::Next, n, &answers.list.words, rota, 0), Some(answers));
    }
}

/// The longest chains that there are, up to 256 choices. What is expected of the widest takes long to work out, so that a part goes without them.
pub fn longest_chains(tally: &mut Tally) {
    let widest = if tally.one_in == 1 { 256 } else { 64 };
    for n in [1, 2, 3, 12, 13, 64, 255, 256].into_iter().filter(|&n| n <= widest) {
        let list = lists::longest(&mut tally.random, n);
        let answers = Answers::by_clash(&list);
        plain_calls(tally, n, &list.words, Some(&answers), 0);
        tally.hold(&Case::new(Call::Next, n, &list.words, &vec![0; n], 0), Some(&answers));
    }
}

/// As many rules as a list may have, on few choices.
pub fn most_rules(tally: &mut Tally, rounds: usize) {
    for round in 0..tally.part(rounds) {
        let n = 1 + round % 12;
        let few = lists::list(&mut tally.random, n, KINDS[round % KINDS.len()].1);
        let words: Vec<u16> = few.words.chunks(2).cycle().take(2048).flatten().copied().collect();
        let answers = Answers::of(&List { n, words });
        plain_calls(tally, n, &answers.list.words, Some(&answers), 0);
        some_next(tally, &answers);
    }
}
