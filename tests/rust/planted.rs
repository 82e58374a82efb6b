//! Faults planted in copies of the expected answers: each has to be reported, or the comparison could not fail.

use crate::answers::{Answers, Call};
use crate::books;
use crate::cases::{Case, Spoil, Tally};
use crate::meaning::List;

/// How many faults were planted, and how many of them were reported.
pub struct Planted {
    pub planted: u64,
    pub reported: u64,
}

/// For each call on a list each kind of answer (done, Impossible, Ended, a refusal, 200), and for each call on a book.
pub fn every_fault(seed: u64) -> Planted {
    let mut sum = Planted { planted: 0, reported: 0 };
    for (call, n, words, rota) in cases() {
        let list = List { n, words };
        let accepted = list.words.iter().all(|&code| (code as usize) < 2 * n);
        let answers = accepted.then(|| Answers::of(&list));
        let case = Case::new(call, n, &list.words, &rota, 2);
        let short = Case { out_len: 2, ..case.clone() };
        plant(seed, |tally| tally.hold(&case, answers.as_ref()), &mut sum);
        plant(seed, |tally| tally.hold(&short, answers.as_ref()), &mut sum);
    }
    books::SINGLE.iter().for_each(|call| plant(seed, call, &mut sum));
    sum
}

fn cases() -> Vec<(Call, usize, Vec<u16>, Vec<u8>)> {
    let lists = [(2, vec![0, 2, 0, 3]), (2, vec![0, 2, 0, 3, 1, 2, 1, 3]), (2, vec![0, 4])];
    let calls = [Call::Decide, Call::Forced, Call::Clash, Call::Ties];
    let plain = lists.iter().flat_map(|(n, words)| calls.map(|call| (call, *n, words.clone(), Vec::new())));
    let rotas = [vec![0, 0], vec![1, 0], vec![1, 1], vec![0, 2]];
    let next = lists.iter().flat_map(|(n, words)| rotas.clone().map(|rota| (Call::Next, *n, words.clone(), rota)));
    plain.chain(next).collect()
}

/// One call over and over: the number spoilt first, then each item of each area in turn, guard zones included, and all the rest as it should be.
fn plant(seed: u64, call: impl Fn(&mut Tally), sum: &mut Planted) {
    let mut clean = Tally::new(seed);
    call(&mut clean);
    let items = (0..clean.items as usize - 1).map(Spoil::Item);
    for spoil in std::iter::once(Spoil::Number).chain(items) {
        let mut tally = Tally { spoil: Some(spoil), ..Tally::new(seed) };
        call(&mut tally);
        sum.planted += 1;
        sum.reported += tally.failed;
    }
}
