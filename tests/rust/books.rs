//! Rule books: an encoder, a reader that goes by the order of the rules, and books whole, damaged and random, for the reader and the host's calls.

use crate::answers::{Answers, Call, ENDED, IMPOSSIBLE};
use crate::areas::{Lent, Outcome, Scene};
use crate::cases::Tally;
use crate::face;
use crate::lists::{self, KINDS};
use crate::meaning::List;

type Refusal = (u32, usize);

/// The shortest form: one byte below 128, else two, the lowest seven bits first.
fn encode_number(number: usize) -> Vec<u8> {
    if number < 128 {
        vec![number as u8]
    } else {
        vec![(number % 128) as u8 + 128, (number / 128) as u8]
    }
}

fn encode(list: &List) -> Vec<u8> {
    let codes = list.words.iter().map(|&code| code as usize);
    [list.n, list.words.len() / 2].into_iter().chain(codes).flat_map(encode_number).collect()
}

/// What is left of a book from a place on: a number, the place it starts at, and the place after it.
fn number_at(book: &[u8], at: usize) -> Result<(usize, usize), Refusal> {
    let first = *book.get(at).ok_or((7, book.len()))? as usize;
    if first < 128 {
        return Ok((first, at + 1));
    }
    let second = *book.get(at + 1).ok_or((7, book.len()))? as usize;
    match second {
        128..=255 => Err((8, at + 1)),
        0 => Err((9, at + 1)),
        _ => Ok((first - 128 + 128 * second, at + 2)),
    }
}

fn limited(number: usize, limit: usize, refusal: Refusal) -> Result<(), Refusal> {
    if number > limit {
        Err(refusal)
    } else {
        Ok(())
    }
}

/// The list of a book, into this many words.
fn read(book: &[u8], room: usize) -> Result<List, Refusal> {
    let (n, m_at) = number_at(book, 0)?;
    limited(n, 256, (1, 0))?;
    let (m, mut at) = number_at(book, m_at)?;
    limited(m, 2048, (3, m_at))?;
    limited(2 * m, room, (6, 0))?;
    let mut words = Vec::new();
    while words.len() < 2 * m {
        let (code, after) = number_at(book, at)?;
        limited(code + 1, 2 * n, (4, at))?;
        words.push(code as u16);
        at = after;
    }
    limited(book.len(), at, (10, at))?;
    Ok(List { n, words })
}

/// A book and what is lent beside it, for a failure's line.
#[derive(Debug)]
#[allow(dead_code)]
struct Lending<'a> {
    call: &'static str,
    book: &'a [u8],
    area: &'a [u8],
    room: usize,
}

fn hold_read(tally: &mut Tally, book: &[u8], room: usize, out_len: usize) {
    let outcome = match read(book, room) {
        _ if out_len < 3 => Outcome::number(200),
        Err((number, place)) => Outcome::refusal(number, place),
        Ok(list) => Outcome { out: vec![list.n as u64, list.words.len() as u64 / 2], items: list.words, ..Outcome::default() },
    };
    let random = &mut tally.random;
    let (input, area) = (Lent::holding(book, random), Lent::noise(room, random));
    let scene = Scene { input, area, work: Lent::noise(0, random), out: Lent::noise(out_len, random) };
    tally.compare(scene, &outcome, face::read_book, &Lending { call: "read_book", book, area: &[], room });
}

/// A host's call: the reader's refusals, then 6, then 11, then the list's own answer.
fn host_outcome(call: Call, list: &Result<List, Refusal>, answers: Option<&Answers>, rota: &[u8]) -> Outcome {
    let n = match list {
        Err((number, _)) => return Outcome::number(*number),
        Ok(list) => list.n,
    };
    if rota.len() < n {
        return Outcome::number(6);
    }
    if call == Call::Next && rota[..n].iter().any(|&value| value > 1) {
        return Outcome::number(11);
    }
    let outcome = answers.expect("an accepted book has answers").outcome(call, &rota[..n]);
    match outcome.number {
        IMPOSSIBLE => Outcome::number(20),
        ENDED => Outcome::number(21),
        _ => Outcome { items: outcome.items, ..Outcome::default() },
    }
}

fn hold_host(tally: &mut Tally, call: Call, book: &[u8], rota: &[u8]) {
    let list = read(book, 4096);
    let answers = list.as_ref().ok().map(answers);
    let outcome = host_outcome(call, &list, answers.as_ref(), rota);
    hold_host_to(tally, call, book, &outcome, rota);
}

fn hold_host_to(tally: &mut Tally, call: Call, book: &[u8], outcome: &Outcome, rota: &[u8]) {
    let random = &mut tally.random;
    let (input, area) = (Lent::holding(book, random), Lent::holding(rota, random));
    let scene = Scene { input, area, work: Lent::noise(0, random), out: Lent::noise(0, random) };
    match call {
        Call::Next => tally.compare(scene, outcome, face::host_next, &Lending { call: "next", book, area: rota, room: rota.len() }),
        _ => tally.compare(scene, outcome, face::host_decide, &Lending { call: "decide", book, area: rota, room: rota.len() }),
    }
}

/// The books here link at most 12 choices to each other, damaged or not.
fn answers(list: &List) -> Answers {
    if list.n <= 10 {
        Answers::of(list)
    } else {
        Answers::by_blocks(list)
    }
}

/// A rota area for the host: mostly long enough with values of 0 and 1, now and then short or with a value over 1.
fn rota(tally: &mut Tally, n: usize) -> Vec<u8> {
    let random = &mut tally.random;
    let len = if random.one_in(8) { random.below(n + 1) } else { n + random.below(3) };
    let high = if random.one_in(8) { 3 } else { 2 };
    (0..len).map(|_| random.below(high) as u8).collect()
}

fn hold_hosts(tally: &mut Tally, book: &[u8]) {
    let list = read(book, 4096);
    let answers = list.as_ref().ok().map(answers);
    let n = list.as_ref().map_or(4, |list| list.n);
    for call in [Call::Decide, Call::Next, Call::Next] {
        let rota = rota(tally, n);
        let outcome = host_outcome(call, &list, answers.as_ref(), &rota);
        hold_host_to(tally, call, book, &outcome, &rota);
    }
}

/// The reader with an area that fits, one that is short by one, and one that is longer, and the host's calls.
fn hold_book(tally: &mut Tally, book: &[u8]) {
    let need = read(book, 4096).map_or(6, |list| list.words.len());
    for room in [need, need.max(1) - 1, need + 3] {
        hold_read(tally, book, room, 3);
    }
    hold_hosts(tally, book);
}

/// One call on a book for each kind of answer, for planting faults.
pub const SINGLE: [fn(&mut Tally); 8] = [
    |tally| hold_read(tally, &[1, 1, 0, 0], 3, 3),
    |tally| hold_read(tally, &[1, 1, 0, 2], 3, 3),
    |tally| hold_read(tally, &[1, 1, 0, 0], 3, 2),
    |tally| hold_host(tally, Call::Decide, &[1, 1, 0, 0], &[0, 7]),
    |tally| hold_host(tally, Call::Decide, &[1, 2, 0, 0, 1, 1], &[0, 7]),
    |tally| hold_host(tally, Call::Next, &[1, 1, 0, 0], &[0, 7]),
    |tally| hold_host(tally, Call::Next, &[1, 1, 0, 0], &[1, 7]),
    |tally| hold_host(tally, Call::Next, &[1, 1, 0, 0], &[2, 7]),
];

/// The books that the rules write out, with what it says of them: the room in words, then n and m or a refusal.
pub fn given_books(tally: &mut Tally) {
    let given: [(&[u8], usize, Result<(usize, usize), Refusal>); 11] = [
        (&[0x80, 0x02, 0x00], 0, Ok((256, 0))),
        (&[0x81, 0x02], 0, Err((1, 0))),
        (&[], 0, Err((7, 0))),
        (&[0x80], 0, Err((7, 1))),
        (&[0x80, 0x80], 0, Err((8, 1))),
        (&[0x80, 0x00], 0, Err((9, 1))),
        (&[0x00, 0x81, 0x10], 0, Err((3, 1))),
        (&[0x00, 0x00, 0x00], 0, Err((10, 2))),
        (&[0x01, 0x01, 0x00, 0x02], 2, Err((4, 3))),
        (&[0x01, 0x01, 0x00, 0x00], 1, Err((6, 0))),
        (&[0x03, 0x03, 0x00, 0x02, 0x03, 0x04, 0x01, 0x04], 6, Ok((3, 3))),
    ];
    for (book, room, want) in given {
        let got = read(book, room).map(|list| (list.n, list.words.len() / 2));
        assert_eq!(got, want, "the reader here goes by the rules");
        (0..=4).for_each(|out_len| hold_read(tally, book, room, out_len));
        hold_book(tally, book);
    }
}

const TELLING: [u8; 14] = [0, 1, 2, 3, 4, 5, 0x0f, 0x10, 0x11, 0x7f, 0x80, 0x81, 0x90, 0xff];

/// Every book of up to two bytes, and every book of three to five bytes out of those that tell most.
pub fn short_books(tally: &mut Tally) {
    hold_book(tally, &[]);
    (0..=255).for_each(|byte| hold_book(tally, &[byte]));
    (0..=u16::MAX).for_each(|bytes| two_bytes(tally, bytes));
    for len in 3..=5 {
        (0..TELLING.len().pow(len)).for_each(|book| telling_book(tally, book, len));
    }
}

fn two_bytes(tally: &mut Tally, bytes: u16) {
    if tally.takes() {
        hold_book(tally, &bytes.to_le_bytes());
    }
}

fn telling_book(tally: &mut Tally, book: usize, len: u32) {
    if !tally.takes() {
        return;
    }
    let bytes: Vec<u8> = (0..len).map(|at| TELLING[book / TELLING.len().pow(at) % TELLING.len()]).collect();
    let room = tally.random.below(6);
    hold_read(tally, &bytes, room, 3);
    if len < 5 || tally.random.one_in(8) {
        hold_hosts(tally, &bytes);
    }
}

/// The books of the marked table's lists, and of lists of each kind.
fn whole_books(tally: &mut Tally) -> Vec<Vec<u8>> {
    let table: [(usize, &[u16]); 10] = [
        (0, &[]),
        (1, &[]),
        (1, &[0, 0]),
        (1, &[0, 0, 1, 1]),
        (2, &[0, 2, 0, 3]),
        (2, &[1, 2, 3, 0]),
        (2, &[0, 2, 0, 3, 1, 2, 1, 3]),
        (1, &[0, 1]),
        (3, &[1, 2, 3, 4]),
        (3, &[0, 2, 3, 4, 1, 4]),
    ];
    let marked = table.iter().map(|&(n, words)| List { n, words: words.to_vec() });
    let random = &mut tally.random;
    let kinds: Vec<List> = (0..3 * KINDS.len()).map(|i| lists::list(random, 1 + i % 9, KINDS[i % KINDS.len()].1)).collect();
    marked.chain(kinds).map(|list| encode(&list)).filter(|book| book.len() <= 64).collect()
}

/// From the first rota to the end by the host's own Next.
fn host_walk(tally: &mut Tally, book: &[u8]) {
    let list = read(book, 4096);
    let answers = list.as_ref().ok().map(answers);
    for rota in answers.iter().flat_map(|answers| answers.walk()) {
        let outcome = host_outcome(Call::Next, &list, answers.as_ref(), &rota);
        hold_host_to(tally, Call::Next, book, &outcome, &rota);
    }
}

/// Every truncation of a book, every change of one byte, every byte left out and some put in.
pub fn damaged_books(tally: &mut Tally) {
    for book in whole_books(tally) {
        hold_book(tally, &book);
        host_walk(tally, &book);
        (0..book.len()).for_each(|at| hold_book(tally, &book[..at]));
        (0..book.len()).for_each(|at| damage_byte(tally, &book, at));
        (0..=book.len()).for_each(|at| put_in(tally, &book, at));
    }
}

fn damage_byte(tally: &mut Tally, book: &[u8], at: usize) {
    let mut damaged = book.to_vec();
    for change in 1..=255 {
        damaged[at] = book[at] ^ change;
        hold_some(tally, &damaged);
    }
    damaged.remove(at);
    hold_some(tally, &damaged);
}

fn put_in(tally: &mut Tally, book: &[u8], at: usize) {
    for byte in TELLING {
        let mut damaged = book.to_vec();
        damaged.insert(at, byte);
        hold_some(tally, &damaged);
    }
}

fn hold_some(tally: &mut Tally, book: &[u8]) {
    if tally.takes() {
        hold_damaged(tally, book);
    }
}

fn hold_damaged(tally: &mut Tally, book: &[u8]) {
    let room = tally.random.between(book.len().max(2) - 2, book.len() + 1);
    hold_read(tally, book, room, 3);
    hold_hosts(tally, book);
}

pub fn random_books(tally: &mut Tally, rounds: usize) {
    for _ in 0..tally.part(rounds) {
        let (len, high) = (tally.random.below(24), tally.random.pick(&[4, 16, 128, 256]));
        let mut book: Vec<u8> = (0..len).map(|_| tally.random.below(high) as u8).collect();
        // A small n and m let the reader get as far as the codes.
        book.iter_mut().take(2).for_each(|byte| *byte %= 12);
        hold_damaged(tally, &book);
    }
}

/// Books of full size: the longest legal one has 8,196 bytes.
pub fn long_books(tally: &mut Tally, rounds: usize) {
    for round in 0..tally.part(rounds) {
        let narrow = lists::wide(&mut tally.random, 192, round % 4 == 0);
        let words = narrow.words.chunks(2).cycle().take(2048).flatten().map(|&code| code + 128).collect();
        let book = encode(&List { n: 256, words });
        assert_eq!(book.len(), 8196, "the longest legal book");
        hold_book(tally, &book);
        long_damage(tally, &book);
    }
}

fn long_damage(tally: &mut Tally, book: &[u8]) {
    hold_read(tally, &[book, &[0]].concat(), 4096, 3);
    for _ in 0..50 {
        let at = tally.random.below(book.len());
        let mut damaged = book.to_vec();
        damaged[at] ^= tally.random.between(1, 255) as u8;
        hold_read(tally, &damaged, 4096, 3);
        hold_read(tally, &book[..at], 4096, 3);
    }
}
