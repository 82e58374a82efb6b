//! What each call has to answer on a list that it does not refuse.

use crate::areas::Outcome;
use crate::meaning::List;
use crate::rotas::{All, Blocks, Nothing, Rotas};

#[derive(Clone, Copy, Debug, PartialEq)]
pub enum Call {
    Decide,
    Forced,
    Clash,
    Next,
    Ties,
}

pub const IMPOSSIBLE: u32 = 100;
pub const ENDED: u32 = 101;

pub struct Answers {
    pub list: List,
    rotas: Box<dyn Rotas>,
    reach: Vec<Vec<bool>>,
    clash: Option<u16>,
}

impl Answers {
    /// From all rotas, for at most 12 choices.
    pub fn of(list: &List) -> Self {
        Self::from(list, |_| Box::new(All::of(list)))
    }

    /// From all rotas of each block of at most 12 linked choices.
    pub fn by_blocks(list: &List) -> Self {
        Self::from(list, |_| Box::new(Blocks::of(list)))
    }

    /// From the clash alone, for an impossible list of any width.
    pub fn by_clash(list: &List) -> Self {
        Self::from(list, |_| Box::new(Nothing))
    }

    fn from(list: &List, rotas: impl Fn(&List) -> Box<dyn Rotas>) -> Self {
        let (list, rotas, reach) = (list.clone(), rotas(list), list.reach());
        let clashes = |v: usize| reach[2 * v][2 * v + 1] && reach[2 * v + 1][2 * v];
        let clash = (0..list.n).find(|&v| clashes(v)).map(|v| v as u16);
        assert!(clash.is_some() == rotas.first().is_none(), "chains and rotas disagree on {list:?}");
        Answers { list, rotas, reach, clash }
    }

    pub fn clash(&self) -> Option<u16> {
        self.clash
    }

    pub fn outcome(&self, call: Call, rota: &[u8]) -> Outcome {
        let outcome = match (call, self.clash) {
            (Call::Decide, Some(v)) => Outcome { number: IMPOSSIBLE, out: vec![v as u64], ..Outcome::default() },
            (Call::Clash, Some(v)) => self.chains(v),
            (_, Some(_)) => Outcome::number(IMPOSSIBLE),
            (Call::Decide, None) => done(&self.first()),
            (Call::Forced, None) => done(&self.rotas.forced()),
            (Call::Clash, None) => Outcome::number(0),
            (Call::Next, None) => self.rotas.after(rota).map_or(Outcome::number(ENDED), |rota| done(&rota)),
            (Call::Ties, None) => Outcome { items: self.ties(), ..Outcome::default() },
        };
        Outcome { cleared: work_need(self.list.n, self.list.words.len() / 2), ..outcome }
    }

    pub fn first(&self) -> Vec<u8> {
        self.rotas.first().expect("a list without a clash has a rota")
    }

    /// Every allowed rota in order, from the first.
    pub fn walk(&self) -> impl Iterator<Item = Vec<u8>> + '_ {
        std::iter::successors(self.rotas.first(), move |rota| self.rotas.after(rota))
    }

    fn chains(&self, v: u16) -> Outcome {
        let late_early = self.list.shortest(2 * v, 2 * v + 1);
        let early_late = self.list.shortest(2 * v + 1, 2 * v);
        let out = vec![v as u64, late_early.len() as u64, early_late.len() as u64];
        Outcome { number: IMPOSSIBLE, out, items: [late_early, early_late].concat(), cleared: 0 }
    }

    fn ties(&self) -> Vec<u16> {
        let codes = 2 * self.list.n;
        let tied = |a: usize, b: usize| self.reach[a][b] && self.reach[b][a];
        (0..self.list.n).map(|v| (0..codes).find(|&code| tied(2 * v, code)).unwrap() as u16).collect()
    }
}

fn done(values: &[u8]) -> Outcome {
    Outcome { items: values.iter().map(|&value| value as u16).collect(), ..Outcome::default() }
}

pub fn area_need(call: Call, n: usize) -> usize {
    match call {
        Call::Clash => n.saturating_mul(4),
        _ => n,
    }
}

pub fn work_need(n: usize, rules: usize) -> usize {
    n.saturating_mul(8).saturating_add(6 * rules + 16)
}
