//! The lent areas of one call, a guard zone at both ends of each, and the whole of them compared with what the call had to leave there.

use crate::random::Random;
use std::sync::atomic::{AtomicUsize, Ordering};

/// How many items a guard zone has.
static GUARD: AtomicUsize = AtomicUsize::new(8);

/// From here on an area ends where its memory does, so that a checker of memory sees an access past it, also one that only reads.
pub fn drop_guards() {
    GUARD.store(0, Ordering::Relaxed);
}

fn guard() -> usize {
    GUARD.load(Ordering::Relaxed)
}

/// An item of an area: a byte, a word of 16 bits, or a value of `out`.
pub trait Item: Copy + PartialEq + std::fmt::Debug {
    fn of(bits: u64) -> Self;
    fn flipped(self) -> Self;
}

macro_rules! item {
    ($t:ty) => {
        impl Item for $t {
            fn of(bits: u64) -> Self {
                bits as $t
            }
            fn flipped(self) -> Self {
                self ^ 1
            }
        }
    };
}

item!(u8);
item!(u16);
item!(u64);

/// One area. It starts as noise, so that an item that a call leaves alone is told from one that it sets to 0.
#[derive(Clone)]
pub struct Lent<T> {
    all: Vec<T>,
    len: usize,
    /// An empty area is passed as NULL half of the time.
    null: bool,
}

impl<T: Item> Lent<T> {
    pub fn noise(len: usize, random: &mut Random) -> Self {
        let all = (0..len + 2 * guard()).map(|_| T::of(random.bits())).collect();
        Lent { all, len, null: len == 0 && random.one_in(2) }
    }

    pub fn holding(items: &[T], random: &mut Random) -> Self {
        let mut area = Self::noise(items.len(), random);
        area.put(items);
        area
    }

    pub fn put(&mut self, items: &[T]) {
        assert!(items.len() <= self.len, "an expected answer is longer than its area");
        self.all[guard()..guard() + items.len()].copy_from_slice(items);
    }

    pub fn len(&self) -> usize {
        self.len
    }

    pub fn ptr(&self) -> *const T {
        if self.null {
            std::ptr::null()
        } else {
            self.all[guard()..].as_ptr()
        }
    }

    pub fn mut_ptr(&mut self) -> *mut T {
        if self.null {
            std::ptr::null_mut()
        } else {
            self.all[guard()..].as_mut_ptr()
        }
    }

    /// The first item that differs from the one in `want`; its place counts from the area's start, so a guard's may be negative.
    fn difference(&self, want: &Self, name: &str) -> Option<String> {
        if self.all == want.all {
            return None;
        }
        let at = self.all.iter().zip(&want.all).position(|(got, want)| got != want)?;
        let place = at as i64 - guard() as i64;
        Some(format!("{name}[{place}] of {}: got {:?}, want {:?}", self.len, self.all[at], want.all[at]))
    }
}

/// All that one call is lent. The input is lent for reading, and is compared all the same.
#[derive(Clone)]
pub struct Scene<I, T> {
    pub input: Lent<I>,
    pub area: Lent<T>,
    pub work: Lent<u16>,
    pub out: Lent<u64>,
}

/// What a call has to give: its number, the first values of `out`, the first items of its area, and how many words of work it clears.
#[derive(Clone, Default)]
pub struct Outcome {
    pub number: u32,
    pub out: Vec<u64>,
    pub items: Vec<u16>,
    pub cleared: usize,
}

impl Outcome {
    pub fn refusal(number: u32, place: usize) -> Self {
        Outcome { number, out: vec![place as u64], ..Self::default() }
    }

    pub fn number(number: u32) -> Self {
        Outcome { number, ..Self::default() }
    }
}

impl<I: Item, T: Item> Scene<I, T> {
    pub fn after(&self, outcome: &Outcome) -> Self {
        let mut scene = self.clone();
        let items: Vec<T> = outcome.items.iter().map(|&item| T::of(item as u64)).collect();
        scene.area.put(&items);
        scene.work.put(&vec![0; outcome.cleared]);
        scene.out.put(&outcome.out);
        scene
    }

    pub fn difference(&self, want: &Self) -> Option<String> {
        let input = self.input.difference(&want.input, "input");
        let area = input.or_else(|| self.area.difference(&want.area, "area"));
        let work = area.or_else(|| self.work.difference(&want.work, "work"));
        work.or_else(|| self.out.difference(&want.out, "out"))
    }

    /// How many items stand in the areas, guard zones included.
    pub fn items(&self) -> usize {
        self.input.all.len() + self.area.all.len() + self.work.all.len() + self.out.all.len()
    }

    /// Change one item, counted over all areas.
    pub fn spoil(&mut self, at: usize) {
        let (input, area, work) = (self.input.all.len(), self.area.all.len(), self.work.all.len());
        if at < input {
            flip(&mut self.input.all[at]);
        } else if at < input + area {
            flip(&mut self.area.all[at - input]);
        } else if at < input + area + work {
            flip(&mut self.work.all[at - input - area]);
        } else {
            flip(&mut self.out.all[at - input - area - work]);
        }
    }
}

fn flip<T: Item>(item: &mut T) {
    *item = item.flipped();
}
