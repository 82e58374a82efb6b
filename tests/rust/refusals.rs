//! Every set of faults at once in a list call: the first in the order 200, 1, 2, 3, 6, 5, 4, 11 is answered, and nothing changes.

use crate::answers::{area_need, work_need, Answers, Call};
use crate::cases::{Case, Tally};
use crate::meaning::List;

/// In the order in which they are answered. 200 stands for an `out` of fewer than 3 values.
const FAULTS: [u32; 8] = [200, 1, 2, 3, 6, 5, 4, 11];
const CALLS: [Call; 5] = [Call::Decide, Call::Forced, Call::Clash, Call::Next, Call::Ties];

pub fn every_set_of_faults(tally: &mut Tally, rounds: usize) {
    for round in 0..tally.part(rounds) {
        (0..1 << FAULTS.len()).for_each(|set| CALLS.iter().for_each(|&call| faults(tally, call, set, round)));
    }
}

/// One call with the faults of the set. Next alone looks at values; and a huge n makes the areas too short as well, which comes later.
fn faults(tally: &mut Tally, call: Call, set: usize, round: usize) {
    let has = |fault: u32| FAULTS.iter().position(|&other| other == fault).map_or(false, |at| set >> at & 1 == 1);
    let case = with_faults(tally, call, &has, round);
    let due = FAULTS.iter().copied().find(|&fault| has(fault) && (fault != 11 || call == Call::Next));
    let answers = due.is_none().then(|| Answers::by_blocks(&List { n: case.n, words: case.words.clone() }));
    assert_eq!(case.outcome(answers.as_ref()).number, due.unwrap_or(0), "the faults of {case:?}");
    tally.hold(&case, answers.as_ref());
}

fn with_faults(tally: &mut Tally, call: Call, has: &dyn Fn(u32) -> bool, round: usize) -> Case {
    let random = &mut tally.random;
    let n = match has(1) {
        true => random.pick(&[257, 258, 512, 32_768, 65_536, 65_537, 1 << 32, usize::MAX / 8 + 1, usize::MAX]),
        false => random.pick(&[1, 2, 12, 255, 256]),
    };
    // Demands of late alone, so that what is not refused is possible.
    let top = 2 * n.min(256);
    let rules = if has(3) { random.pick(&[2049, 2050, 4096, 32_768]) } else { random.pick(&[1, 2, 3, 2047]) };
    let mut words: Vec<u16> = (0..2 * rules).map(|at| (at / 2 * 2 % top) as u16).collect();
    if has(2) {
        words.push(0);
    }
    if has(4) {
        let at = if round % 3 == 0 { 0 } else { random.below(words.len()) };
        words[at] = if n > 32_767 || random.one_in(2) { 65_535 } else { 2 * n as u16 };
        let last = words.len() - 1;
        words[last] = if random.one_in(2) { 65_535 } else { words[last] };
    }
    let mut rota = vec![0; n.min(300)];
    if has(11) {
        let at = random.below(rota.len());
        rota[at] = random.pick(&[2, 3, 128, 254, 255]);
    }
    let mut case = Case { call, n, words, rota, area_len: 0, work_len: 0, out_len: 3 };
    lengths(tally, &mut case, has);
    case
}

/// Areas of the least length or longer, or short by one, by some or by all.
fn lengths(tally: &mut Tally, case: &mut Case, has: &dyn Fn(u32) -> bool) {
    let random = &mut tally.random;
    let spare = random.below(3);
    let (area, work) = (area_need(case.call, case.n), work_need(case.n, case.words.len() / 2));
    case.area_len = match has(6) {
        true => [area.min(2000) - 1, area.min(2000) / 2, 0][spare],
        false => area.min(2000) + spare,
    };
    case.work_len = match has(5) {
        true => [work.min(30_000) - 1, work.min(30_000) / 2, 0][spare],
        false => work.min(30_000) + spare,
    };
    case.out_len = if has(200) { spare } else { 3 + spare };
}

/// The place of a code that is too high, and of a value over 1, wherever it stands and whatever follows it.
pub fn every_place(tally: &mut Tally) {
    for n in 1..=6 {
        (0..20).for_each(|at| high_code(tally, n, at));
        (0..n).for_each(|at| (2..=255).for_each(|value| value_over(tally, n, at, value)));
    }
}

fn high_code(tally: &mut Tally, n: usize, at: usize) {
    for code in [2 * n as u16, 2 * n as u16 + 1, 256, 512, 32_768, 65_535] {
        let mut words = vec![2 * n as u16 - 1; 20];
        words[at] = code;
        words[(at + 5).min(19)] = 65_534;
        CALLS.iter().for_each(|&call| tally.hold(&Case::new(call, n, &words, &vec![2; n], at % 3), None));
    }
}

fn value_over(tally: &mut Tally, n: usize, at: usize, value: u8) {
    let mut rota = vec![1; n + 2];
    rota[at] = value;
    rota[n - 1] = rota[n - 1].max(value / 2);
    tally.hold(&Case::new(Call::Next, n, &[0, 1], &rota, 2), None);
}

/// Every length of each area up to past the least one.
pub fn every_length(tally: &mut Tally) {
    for n in 0..=4 {
        let list = List { n, words: vec![0; if n == 0 { 0 } else { 4 }] };
        let answers = Answers::of(&list);
        CALLS.iter().for_each(|&call| lengths_of(tally, call, &answers));
    }
}

fn lengths_of(tally: &mut Tally, call: Call, answers: &Answers) {
    let (n, words) = (answers.list.n, &answers.list.words);
    let full = Case::new(call, n, words, &vec![0; n], 0);
    let mut hold = |area_len, work_len, out_len| tally.hold(&Case { area_len, work_len, out_len, ..full.clone() }, Some(answers));
    (0..=full.area_len + 2).for_each(|len| hold(len, full.work_len, 3));
    (0..=full.work_len + 2).for_each(|len| hold(full.area_len, len, 3));
    (0..=5).for_each(|len| hold(full.area_len, full.work_len, len));
    (0..=full.area_len).for_each(|len| (0..=5).for_each(|out| hold(len, full.work_len - len % 2, out)));
}
