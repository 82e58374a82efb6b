//! The allowed rotas of a list: all of them listed, or, for lists too wide for that, all those of each block of choices that rules link.

use crate::meaning::{number, value, values, List};

pub trait Rotas {
    fn first(&self) -> Option<Vec<u8>>;

    /// The first allowed rota strictly after this one, which need not be allowed.
    fn after(&self, rota: &[u8]) -> Option<Vec<u8>>;

    /// Asked only where there is a rota.
    fn forced(&self) -> Vec<u8>;
}

/// Every allowed rota, in dictionary order.
pub struct All {
    pub n: usize,
    pub allowed: Vec<u32>,
}

impl All {
    pub fn of(list: &List) -> Self {
        All { n: list.n, allowed: list.allowed() }
    }

    fn forced_value(&self, choice: usize) -> u8 {
        let late = self.allowed.iter().filter(|&&rota| value(rota, self.n, choice) == 1).count();
        match late {
            0 => 0,
            _ if late == self.allowed.len() => 1,
            _ => 2,
        }
    }
}

impl Rotas for All {
    fn first(&self) -> Option<Vec<u8>> {
        self.allowed.first().map(|&rota| values(rota, self.n))
    }

    fn after(&self, rota: &[u8]) -> Option<Vec<u8>> {
        let given = number(rota);
        self.allowed.iter().find(|&&other| other > given).map(|&other| values(other, self.n))
    }

    fn forced(&self) -> Vec<u8> {
        (0..self.n).map(|choice| self.forced_value(choice)).collect()
    }
}

/// A list known to be impossible by its clash.
pub struct Nothing;

impl Rotas for Nothing {
    fn first(&self) -> Option<Vec<u8>> {
        None
    }

    fn after(&self, _: &[u8]) -> Option<Vec<u8>> {
        None
    }

    fn forced(&self) -> Vec<u8> {
        unreachable!("an impossible list forces nothing")
    }
}

/// No rule links choices of two blocks, so a rota is allowed exactly if each block's part of it is.
pub struct Blocks {
    n: usize,
    blocks: Vec<Block>,
}

struct Block {
    choices: Vec<usize>,
    rotas: All,
}

impl Blocks {
    pub fn of(list: &List) -> Self {
        let names = names(list);
        let blocks = (0..list.n).filter(|&v| names[v] == v).map(|name| Block::of(list, &names, name)).collect();
        Blocks { n: list.n, blocks }
    }

    /// The first allowed rota that starts with these values.
    fn starting(&self, start: &[u8]) -> Option<Vec<u8>> {
        let mut rota = vec![0; self.n];
        let found = self.blocks.iter().all(|block| block.fill(start, &mut rota));
        found.then(|| rota)
    }
}

/// For each choice the lowest choice of its block.
fn names(list: &List) -> Vec<usize> {
    let mut names: Vec<usize> = (0..list.n).collect();
    while list.rules().any(|(left, right)| join(&mut names, left as usize / 2, right as usize / 2)) {}
    names
}

fn join(names: &mut [usize], one: usize, other: usize) -> bool {
    let (low, high) = (names[one].min(names[other]), names[one].max(names[other]));
    names.iter_mut().filter(|name| **name == high).for_each(|name| *name = low);
    low != high
}

impl Block {
    fn of(list: &List, names: &[usize], name: usize) -> Self {
        let choices: Vec<usize> = (0..list.n).filter(|&v| names[v] == name).collect();
        let own = |code: u16| choices.binary_search(&(code as usize / 2)).ok().map(|v| 2 * v as u16 + code % 2);
        let words = list.words.iter().filter_map(|&code| own(code)).collect();
        let rotas = All::of(&List { n: choices.len(), words });
        Block { choices, rotas }
    }

    fn fill(&self, start: &[u8], rota: &mut [u8]) -> bool {
        let n = self.choices.len();
        let fits = |part: u32| self.choices.iter().enumerate().all(|(i, &v)| v >= start.len() || start[v] == value(part, n, i));
        let found = self.rotas.allowed.iter().find(|&&part| fits(part));
        if let Some(&part) = found {
            self.choices.iter().enumerate().for_each(|(i, &v)| rota[v] = value(part, n, i));
        }
        found.is_some()
    }
}

impl Rotas for Blocks {
    fn first(&self) -> Option<Vec<u8>> {
        self.starting(&[])
    }

    /// A later rota agrees with this one up to some choice, early here and late there: the later that choice, the earlier the rota.
    fn after(&self, rota: &[u8]) -> Option<Vec<u8>> {
        let raised = |v: usize| [&rota[..v], &[1]].concat();
        (0..self.n).rev().filter(|&v| rota[v] == 0).find_map(|v| self.starting(&raised(v)))
    }

    fn forced(&self) -> Vec<u8> {
        let mut forced = vec![2; self.n];
        for block in &self.blocks {
            block.choices.iter().zip(block.rotas.forced()).for_each(|(&v, value)| forced[v] = value);
        }
        forced
    }
}
