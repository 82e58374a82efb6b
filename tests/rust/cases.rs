//! One call on a list: what it is given, what it has to give, and the two held against each other.

use crate::answers::{area_need, work_need, Answers, Call};
use crate::areas::{Item, Lent, Outcome, Scene};
use crate::face;
use crate::random::Random;

/// What a list call is given. `rota` stands first in Next's area; everything else in the areas is noise.
#[derive(Clone, Debug)]
pub struct Case {
    pub call: Call,
    pub n: usize,
    pub words: Vec<u16>,
    pub rota: Vec<u8>,
    pub area_len: usize,
    pub work_len: usize,
    pub out_len: usize,
}

impl Case {
    /// Areas of the least length, and this much more.
    pub fn new(call: Call, n: usize, words: &[u16], rota: &[u8], spare: usize) -> Self {
        let area_len = area_need(call, n) + spare;
        let work_len = work_need(n, words.len() / 2) + spare;
        Case { call, n, words: words.to_vec(), rota: rota.to_vec(), area_len, work_len, out_len: 3 + spare }
    }

    /// The first refusal that applies, in the order 1, 2, 3, 6, 5, 4, 11, with its place.
    pub fn refusal(&self) -> Option<(u32, usize)> {
        let rules = self.words.len() / 2;
        let high = self.words.iter().position(|&code| code as usize >= self.n.saturating_mul(2));
        let over = self.rota.iter().take(self.n).position(|&value| value > 1).filter(|_| self.call == Call::Next);
        let tests = [
            (1, (self.n > 256).then(|| 0)),
            (2, (self.words.len() % 2 == 1).then(|| 0)),
            (3, (rules > 2048).then(|| 0)),
            (6, (self.area_len < area_need(self.call, self.n)).then(|| 0)),
            (5, (self.work_len < work_need(self.n, rules)).then(|| 0)),
            (4, high),
            (11, over),
        ];
        tests.iter().find_map(|&(number, place)| Some((number, place?)))
    }

    /// `answers` are needed where nothing is refused.
    pub fn outcome(&self, answers: Option<&Answers>) -> Outcome {
        if self.out_len < 3 {
            return Outcome::number(200);
        }
        match self.refusal() {
            Some((number, place)) => Outcome::refusal(number, place),
            None => answers.expect("an accepted list has answers").outcome(self.call, &self.rota),
        }
    }

    fn scene<T: Item>(&self, random: &mut Random) -> Scene<u16, T> {
        let input = Lent::holding(&self.words, random);
        let (area, work, out) = (Lent::noise(self.area_len, random), Lent::noise(self.work_len, random), Lent::noise(self.out_len, random));
        Scene { input, area, work, out }
    }

    fn byte_scene(&self, random: &mut Random) -> Scene<u16, u8> {
        let mut scene = self.scene(random);
        scene.area.put(&self.rota[..self.rota.len().min(self.area_len)]);
        scene
    }
}

/// A fault to plant in what is expected: in the number, or in one item of the areas, counted over all of them.
#[derive(Clone, Copy)]
pub enum Spoil {
    Number,
    Item(usize),
}

/// What was held against what, and how it went.
pub struct Tally {
    pub random: Random,
    pub passed: u64,
    pub failed: u64,
    pub items: u64,
    pub spoil: Option<Spoil>,
    /// One in so many lists and books is taken.
    pub one_in: usize,
}

impl Tally {
    pub fn new(seed: u64) -> Self {
        Tally { random: Random::new(seed), passed: 0, failed: 0, items: 0, spoil: None, one_in: 1 }
    }

    /// Whether the next list or book is taken.
    pub fn takes(&mut self) -> bool {
        self.one_in == 1 || self.random.one_in(self.one_in)
    }

    /// The part of so many rounds that is taken, one at least.
    pub fn part(&self, rounds: usize) -> usize {
        (rounds / self.one_in).max(1)
    }

    pub fn hold(&mut self, case: &Case, answers: Option<&Answers>) {
        let outcome = case.outcome(answers);
        match case.call {
            Call::Decide => self.bytes(case, &outcome, face::list_decide),
            Call::Forced => self.bytes(case, &outcome, face::list_forced),
            Call::Next => self.bytes(case, &outcome, face::list_next),
            Call::Clash => self.words(case, &outcome, face::list_clash),
            Call::Ties => self.words(case, &outcome, face::list_ties),
        }
    }

    fn bytes(&mut self, case: &Case, outcome: &Outcome, call: impl Fn(usize, &mut Scene<u16, u8>) -> u32) {
        let scene = case.byte_scene(&mut self.random);
        self.compare(scene, outcome, |scene| call(case.n, scene), case);
    }

    fn words(&mut self, case: &Case, outcome: &Outcome, call: impl Fn(usize, &mut Scene<u16, u16>) -> u32) {
        let scene = case.scene(&mut self.random);
        self.compare(scene, outcome, |scene| call(case.n, scene), case);
    }

    /// Make the call, and compare its number and every item of every area with what it had to give.
    pub fn compare<I: Item, T: Item>(
        &mut self,
        mut scene: Scene<I, T>,
        outcome: &Outcome,
        call: impl Fn(&mut Scene<I, T>) -> u32,
        case: &dyn std::fmt::Debug,
    ) {
        let (mut want, mut number) = (scene.after(outcome), outcome.number);
        match self.spoil {
            Some(Spoil::Item(at)) => want.spoil(at),
            Some(Spoil::Number) => number += 1,
            None => (),
        }
        let got = call(&mut scene);
        let wrong = (got != number).then(|| format!("answer: got {got}, want {number}"));
        self.items += 1 + scene.items() as u64;
        self.count(wrong.or_else(|| scene.difference(&want)), case);
    }

    /// A fault that was planted is counted, not told.
    fn count(&mut self, fault: Option<String>, case: &dyn std::fmt::Debug) {
        match fault {
            None => self.passed += 1,
            Some(fault) => {
                self.failed += 1;
                if self.failed <= 20 && self.spoil.is_none() {
                    println!("FAILED {:.600}\n    {fault}", format!("{case:?}"));
                }
            }
        }
    }
}
