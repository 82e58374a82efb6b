//! The marked table, its answers written out by hand.

use crate::answers::{Answers, Call, ENDED, IMPOSSIBLE};
use crate::areas::Outcome;
use crate::cases::{Case, Tally};
use crate::meaning::List;

/// A call, n, the rules' words, Next's rota, and the answer: its number, the values of `out`, what is written.
type Line = (Call, usize, &'static [u16], &'static [u8], u32, &'static [u64], &'static [u16]);

const CLASH: &[u16] = &[0, 2, 0, 3, 1, 2, 1, 3];

#[rustfmt::skip]
const TABLE: [Line; 39] = [
    // A
    (Call::Decide, 0, &[], &[], 0, &[], &[]),
    (Call::Next, 0, &[], &[], ENDED, &[], &[]),
    // B
    (Call::Decide, 1, &[], &[], 0, &[], &[0]),
    (Call::Forced, 1, &[], &[], 0, &[], &[2]),
    (Call::Next, 1, &[], &[0], 0, &[], &[1]),
    (Call::Next, 1, &[], &[1], ENDED, &[], &[]),
    // C
    (Call::Decide, 1, &[0, 0], &[], 0, &[], &[1]),
    (Call::Forced, 1, &[0, 0], &[], 0, &[], &[1]),
    (Call::Next, 1, &[0, 0], &[0], 0, &[], &[1]),
    // D
    (Call::Decide, 1, &[0, 0, 1, 1], &[], IMPOSSIBLE, &[0], &[]),
    (Call::Clash, 1, &[0, 0, 1, 1], &[], IMPOSSIBLE, &[0, 1, 1], &[1, 0]),
    // E
    (Call::Decide, 2, &[0, 2, 0, 3], &[], 0, &[], &[1, 0]),
    (Call::Next, 2, &[0, 2, 0, 3], &[1, 0], 0, &[], &[1, 1]),
    (Call::Next, 2, &[0, 2, 0, 3], &[1, 1], ENDED, &[], &[]),
    (Call::Forced, 2, &[0, 2, 0, 3], &[], 0, &[], &[1, 2]),
    // F
    (Call::Decide, 2, &[1, 2, 3, 0], &[], 0, &[], &[0, 0]),
    (Call::Next, 2, &[1, 2, 3, 0], &[0, 0], 0, &[], &[1, 1]),
    (Call::Next, 2, &[1, 2, 3, 0], &[1, 1], ENDED, &[], &[]),
    (Call::Forced, 2, &[1, 2, 3, 0], &[], 0, &[], &[2, 2]),
    (Call::Ties, 2, &[1, 2, 3, 0], &[], 0, &[], &[0, 0]),
    // G
    (Call::Decide, 2, CLASH, &[], IMPOSSIBLE, &[0], &[]),
    (Call::Clash, 2, CLASH, &[], IMPOSSIBLE, &[0, 2, 2], &[2, 3, 0, 1]),
    // H
    (Call::Decide, 1, &[0, 1], &[], 0, &[], &[0]),
    (Call::Next, 1, &[0, 1], &[0], 0, &[], &[1]),
    (Call::Next, 1, &[0, 1], &[1], ENDED, &[], &[]),
    // I
    (Call::Decide, 3, &[1, 2, 3, 4], &[], 0, &[], &[0, 0, 0]),
    (Call::Next, 3, &[1, 2, 3, 4], &[0, 0, 0], 0, &[], &[0, 0, 1]),
    (Call::Next, 3, &[1, 2, 3, 4], &[0, 0, 1], 0, &[], &[0, 1, 1]),
    (Call::Next, 3, &[1, 2, 3, 4], &[0, 1, 0], 0, &[], &[0, 1, 1]),
    (Call::Next, 3, &[1, 2, 3, 4], &[0, 1, 1], 0, &[], &[1, 1, 1]),
    (Call::Next, 3, &[1, 2, 3, 4], &[1, 1, 1], ENDED, &[], &[]),
    // J
    (Call::Decide, 3, &[0, 2, 3, 4, 1, 4], &[], 0, &[], &[0, 1, 1]),
    (Call::Next, 3, &[0, 2, 3, 4, 1, 4], &[0, 1, 1], 0, &[], &[1, 0, 1]),
    (Call::Next, 3, &[0, 2, 3, 4, 1, 4], &[1, 0, 1], 0, &[], &[1, 1, 1]),
    (Call::Next, 3, &[0, 2, 3, 4, 1, 4], &[1, 1, 1], ENDED, &[], &[]),
    (Call::Forced, 3, &[0, 2, 3, 4, 1, 4], &[], 0, &[], &[2, 2, 1]),
    // K
    (Call::Decide, 2, &[0, 4], &[], 4, &[1], &[]),
    (Call::Clash, 2, &[0, 4], &[], 4, &[1], &[]),
    (Call::Ties, 2, &[0, 4], &[], 4, &[1], &[]),
];

/// The answers worked out here are the table's, and so are the archive's.
pub fn marked_table(tally: &mut Tally) {
    for (call, n, words, rota, number, out, items) in TABLE {
        let accepted = words.iter().all(|&code| (code as usize) < 2 * n);
        let answers = accepted.then(|| Answers::of(&List { n, words: words.to_vec() }));
        let case = Case::new(call, n, words, rota, 1);
        let Outcome { number: got, out: values, items: written, .. } = case.outcome(answers.as_ref());
        assert_eq!((got, &values[..], &written[..]), (number, out, items), "the marked table on {case:?}");
        tally.hold(&case, answers.as_ref());
    }
}
