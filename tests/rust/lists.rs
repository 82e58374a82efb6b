//! Seeded random lists of each kind that is likely to find a fault.

use crate::meaning::{is_true, opposite, List};
use crate::random::Random;

type Rule = (u16, u16);

/// A kind makes the rules for n choices; n is not 0.
pub type Kind = fn(&mut Random, usize) -> Vec<Rule>;

pub const KINDS: [(&str, Kind); 10] = [
    ("border", border),
    ("dense", dense),
    ("planted", planted),
    ("chains", chains),
    ("cycles", cycles),
    ("ladders", ladders),
    ("units", units),
    ("tautologies", tautologies),
    ("repeats", repeats),
    ("mixed", mixed),
];

pub fn list(random: &mut Random, n: usize, kind: Kind) -> List {
    let mut rules = if n == 0 { Vec::new() } else { kind(random, n) };
    random.shuffle(&mut rules);
    let swapped = rules.into_iter().map(|rule| turned(random, rule));
    List { n, words: swapped.flat_map(|(left, right)| [left, right]).collect() }
}

fn turned(random: &mut Random, (left, right): Rule) -> Rule {
    if random.one_in(2) {
        (left, right)
    } else {
        (right, left)
    }
}

fn code(random: &mut Random, n: usize) -> u16 {
    random.below(2 * n) as u16
}

fn any(random: &mut Random, n: usize) -> Rule {
    (code(random, n), code(random, n))
}

fn many(random: &mut Random, count: usize, rule: impl Fn(&mut Random) -> Rule) -> Vec<Rule> {
    (0..count).map(|_| rule(random)).collect()
}

/// About as many rules as choices, where possible lists turn impossible.
fn border(random: &mut Random, n: usize) -> Vec<Rule> {
    let count = random.between(n - n / 4, n + n / 2 + 1);
    many(random, count, |random| any(random, n))
}

fn dense(random: &mut Random, n: usize) -> Vec<Rule> {
    let count = random.between(2 * n, 6 * n);
    many(random, count, |random| any(random, n))
}

/// Every rule is met by one rota, so the list is possible however many rules it has.
fn planted(random: &mut Random, n: usize) -> Vec<Rule> {
    let rota: Vec<u8> = (0..n).map(|_| random.below(2) as u8).collect();
    let count = random.between(n, 4 * n);
    many(random, count, |random| {
        let (left, right) = any(random, n);
        let met = is_true(left, rota[left as usize / 2]) || is_true(right, rota[right as usize / 2]);
        (if met { left } else { opposite(left) }, right)
    })
}

/// One code of each choice, in random order.
fn codes(random: &mut Random, n: usize) -> Vec<u16> {
    let mut codes: Vec<u16> = (0..n as u16).map(|v| 2 * v + random.below(2) as u16).collect();
    random.shuffle(&mut codes);
    codes
}

/// The rules that lead from each code to the one after it.
fn linked(codes: &[u16]) -> Vec<Rule> {
    codes.windows(2).map(|pair| (opposite(pair[0]), pair[1])).collect()
}

/// A chain through all choices; its start or end demanded or ruled out now and then, and a few rules beside it.
fn chains(random: &mut Random, n: usize) -> Vec<Rule> {
    let codes = codes(random, n);
    let mut rules = linked(&codes);
    let ends = [codes[0], opposite(codes[0]), codes[n - 1], opposite(codes[n - 1])];
    rules.extend((0..random.below(3)).map(|_| random.pick(&ends)).map(|end| (end, end)));
    rules.extend((0..random.below(3)).map(|_| any(random, n)));
    rules
}

/// Cycles of implied codes. One that goes on through the opposites of its codes has no rota, and the longest chains there are.
fn cycles(random: &mut Random, n: usize) -> Vec<Rule> {
    let codes = codes(random, n);
    let cut = random.below(n);
    let mut rules = cycle(random, &codes[..cut]);
    rules.extend(cycle(random, &codes[cut..]));
    rules.extend((0..random.below(3)).map(|_| any(random, n)));
    rules
}

fn cycle(random: &mut Random, codes: &[u16]) -> Vec<Rule> {
    let mut around = codes.to_vec();
    if random.one_in(3) {
        let mut others: Vec<u16> = codes.iter().map(|&code| opposite(code)).collect();
        random.shuffle(&mut others);
        around.extend(others);
    }
    around.extend(codes.first());
    linked(&around)
}

/// Layers of codes, each code leading to all of the next layer: many shortest chains, of which the first has to be told.
fn ladders(random: &mut Random, n: usize) -> Vec<Rule> {
    let mut codes = codes(random, n);
    let start = codes[0];
    codes.push(opposite(start));
    let mut rules = rungs(random, &codes);
    codes.reverse();
    rules.extend(rungs(random, &codes));
    rules
}

/// Rules from the first code to the last by way of layers of one to three codes.
fn rungs(random: &mut Random, codes: &[u16]) -> Vec<Rule> {
    let (mut rules, mut layer, mut rest) = (Vec::new(), &codes[..1], &codes[1..]);
    while !rest.is_empty() {
        let (next, after) = rest.split_at(random.between(1, 3).min(rest.len()));
        rules.extend(layer.iter().flat_map(|&from| next.iter().map(move |&to| (opposite(from), to))));
        (layer, rest) = (next, after);
    }
    rules
}

fn units(random: &mut Random, n: usize) -> Vec<Rule> {
    let count = random.between(1, n);
    let mut rules = many(random, count, |random| {
        let code = code(random, n);
        (code, code)
    });
    let count = random.below(n + 1);
    rules.extend(many(random, count, |random| any(random, n)));
    rules
}

fn tautologies(random: &mut Random, n: usize) -> Vec<Rule> {
    let count = random.between(1, n);
    let mut rules = many(random, count, |random| {
        let code = code(random, n);
        (code, opposite(code))
    });
    rules.extend(border(random, n));
    rules
}

/// Few rules, each of them several times over.
fn repeats(random: &mut Random, n: usize) -> Vec<Rule> {
    let (_, kind) = random.pick(&KINDS[..8]);
    let rules = kind(random, n);
    let count = random.between(rules.len(), 3 * rules.len());
    many(random, count, |random| {
        let rule = random.pick(&rules);
        turned(random, rule)
    })
}

fn mixed(random: &mut Random, n: usize) -> Vec<Rule> {
    let (_, one) = random.pick(&KINDS[..9]);
    let (_, other) = random.pick(&KINDS[..9]);
    let mut rules = one(random, n);
    rules.extend(other(random, n));
    rules.truncate(2048);
    rules
}

/// A list of up to 256 choices: lists of few choices each, on choices that they take in turn, in one shuffled list of at most 2,048 rules.
/// Impossible blocks come in only where asked for.
pub fn wide(random: &mut Random, n: usize, impossible: bool) -> List {
    let mut choices: Vec<u16> = (0..n as u16).collect();
    random.shuffle(&mut choices);
    let (mut rules, mut rest) = (Vec::new(), &choices[..]);
    while !rest.is_empty() {
        let (block, after) = rest.split_at(random.between(1, 8).min(rest.len()));
        let kind: Kind = if impossible && random.one_in(8) { dense } else { planted };
        let own = kind(random, block.len());
        let place = |code: u16| 2 * block[code as usize / 2] + code % 2;
        rules.extend(own.into_iter().map(|(left, right)| (place(left), place(right))));
        rest = after;
    }
    rules.truncate(2048);
    list_of(random, n, rules)
}

/// One cycle through all codes of all choices: a clash with chains as long as can be.
pub fn longest(random: &mut Random, n: usize) -> List {
    let codes = codes(random, n);
    let around: Vec<u16> = codes.iter().copied().chain(codes.iter().map(|&code| opposite(code))).chain([codes[0]]).collect();
    let rules = linked(&around);
    list_of(random, n, rules)
}

fn list_of(random: &mut Random, n: usize, mut rules: Vec<Rule>) -> List {
    random.shuffle(&mut rules);
    List { n, words: rules.into_iter().flat_map(|(left, right)| [left, right]).collect() }
}
