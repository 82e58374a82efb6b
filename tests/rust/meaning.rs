//! What a list of rules means, straight from its definitions: steps, chains and rotas, each found by trying all of them.

/// A list that no refusal applies to.
#[derive(Clone, Debug)]
pub struct List {
    pub n: usize,
    pub words: Vec<u16>,
}

pub fn opposite(code: u16) -> u16 {
    if code % 2 == 0 {
        code + 1
    } else {
        code - 1
    }
}

/// Whether a code is true where its choice has this value: an even code says late.
pub fn is_true(code: u16, value: u8) -> bool {
    (value == 1) == (code % 2 == 0)
}

impl List {
    pub fn rules(&self) -> impl Iterator<Item = (u16, u16)> + '_ {
        self.words.chunks(2).map(|rule| (rule[0], rule[1]))
    }

    fn step(&self, from: u16, rule: usize) -> Option<u16> {
        let (left, right) = (self.words[2 * rule], self.words[2 * rule + 1]);
        if left == opposite(from) {
            Some(right)
        } else if right == opposite(from) {
            Some(left)
        } else {
            None
        }
    }

    /// For each code whether a chain leads to it: go through the rules again and again until no rule adds a code.
    pub fn reached(&self, from: u16) -> Vec<bool> {
        let mut reached = vec![false; 2 * self.n];
        reached[from as usize] = true;
        while self.rules().any(|rule| grow(&mut reached, rule)) {}
        reached
    }

    pub fn reach(&self) -> Vec<Vec<bool>> {
        (0..2 * self.n as u16).map(|code| self.reached(code)).collect()
    }

    /// All chains of a length in dictionary order, from all those that are one shorter. Of those that end in one code only the first is kept:
    /// what can follow another can follow it too, and then comes first.
    fn longer(&self, chains: &[(Vec<u16>, u16)]) -> Vec<(Vec<u16>, u16)> {
        let mut met = vec![false; 2 * self.n];
        let steps = chains.iter().flat_map(|(chain, end)| self.steps_on(chain, *end));
        steps.filter(|(_, end)| !std::mem::replace(&mut met[*end as usize], true)).collect()
    }

    fn steps_on<'a>(&'a self, chain: &'a [u16], end: u16) -> impl Iterator<Item = (Vec<u16>, u16)> + 'a {
        let rules = 0..self.words.len() / 2;
        rules.filter_map(move |rule| self.step(end, rule).map(|next| (with(chain, rule as u16), next)))
    }

    /// The first of the shortest chains, by length and then in dictionary order. There has to be one.
    pub fn shortest(&self, from: u16, to: u16) -> Vec<u16> {
        let mut chains = vec![(Vec::new(), from)];
        loop {
            if let Some((chain, _)) = chains.iter().find(|(_, end)| *end == to) {
                return chain.clone();
            }
            chains = self.longer(&chains);
        }
    }

    /// The same with no chain left out, for short lists: it shows that `longer` may leave out what it does.
    pub fn shortest_of_all(&self, from: u16, to: u16) -> Vec<u16> {
        let mut chains = vec![(Vec::new(), from)];
        while !chains.iter().any(|(_, end)| *end == to) {
            chains = chains.iter().flat_map(|(chain, end)| self.steps_on(chain, *end)).collect();
        }
        chains.into_iter().filter(|(_, end)| *end == to).map(|(chain, _)| chain).min().unwrap()
    }

    /// Every allowed rota of few choices, in dictionary order: choice 0 is the highest bit of a rota's number.
    pub fn allowed(&self) -> Vec<u32> {
        assert!(self.n <= 12, "too many choices to list all rotas");
        (0..1 << self.n).filter(|&rota| self.allows(rota)).collect()
    }

    fn allows(&self, rota: u32) -> bool {
        let holds = |code: u16| is_true(code, value(rota, self.n, code as usize / 2));
        self.rules().all(|(left, right)| holds(left) || holds(right))
    }
}

fn grow(reached: &mut [bool], (left, right): (u16, u16)) -> bool {
    let rightward = reached[opposite(left) as usize] && !reached[right as usize];
    let leftward = reached[opposite(right) as usize] && !reached[left as usize];
    if rightward {
        reached[right as usize] = true;
    }
    if leftward {
        reached[left as usize] = true;
    }
    rightward || leftward
}

fn with(chain: &[u16], rule: u16) -> Vec<u16> {
    let mut longer = chain.to_vec();
    longer.push(rule);
    longer
}

/// The value of a choice in the rota of this number.
pub fn value(rota: u32, n: usize, choice: usize) -> u8 {
    (rota >> (n - 1 - choice) & 1) as u8
}

pub fn values(rota: u32, n: usize) -> Vec<u8> {
    (0..n).map(|choice| value(rota, n, choice)).collect()
}

pub fn number(values: &[u8]) -> u32 {
    values.iter().fold(0, |number, &value| 2 * number + value as u32)
}
