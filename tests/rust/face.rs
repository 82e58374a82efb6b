//! The C functions of the archive, as include/thwartpin.h declares them, and each of them called on a scene. All unsafe code is here.

use crate::areas::{Item, Scene};

#[rustfmt::skip]
#[link(name = "thwartpin", kind = "static")]
extern "C" {
    fn thwartpin_decide(book: *const u8, book_len: usize, rota: *mut u8, rota_len: usize) -> u32;
    fn thwartpin_next(book: *const u8, book_len: usize, rota: *mut u8, rota_len: usize) -> u32;

    fn thwartpin_list_decide(n: usize, words: *const u16, words_len: usize, rota: *mut u8, rota_len: usize,
                             work: *mut u16, work_len: usize, out: *mut u64, out_len: usize) -> u32;
    fn thwartpin_list_forced(n: usize, words: *const u16, words_len: usize, forced: *mut u8, forced_len: usize,
                             work: *mut u16, work_len: usize, out: *mut u64, out_len: usize) -> u32;
    fn thwartpin_list_clash(n: usize, words: *const u16, words_len: usize, chain: *mut u16, chain_len: usize,
                            work: *mut u16, work_len: usize, out: *mut u64, out_len: usize) -> u32;
    fn thwartpin_list_next(n: usize, words: *const u16, words_len: usize, rota: *mut u8, rota_len: usize,
                           work: *mut u16, work_len: usize, out: *mut u64, out_len: usize) -> u32;
    fn thwartpin_list_ties(n: usize, words: *const u16, words_len: usize, ties: *mut u16, ties_len: usize,
                           work: *mut u16, work_len: usize, out: *mut u64, out_len: usize) -> u32;
    fn thwartpin_read_book(book: *const u8, book_len: usize, words: *mut u16, words_len: usize, out: *mut u64, out_len: usize) -> u32;
}

type ListCall<T> = unsafe extern "C" fn(usize, *const u16, usize, *mut T, usize, *mut u16, usize, *mut u64, usize) -> u32;
type HostCall = unsafe extern "C" fn(*const u8, usize, *mut u8, usize) -> u32;

fn list<T: Item>(call: ListCall<T>, n: usize, scene: &mut Scene<u16, T>) -> u32 {
    let Scene { input, area, work, out } = scene;
    unsafe { call(n, input.ptr(), input.len(), area.mut_ptr(), area.len(), work.mut_ptr(), work.len(), out.mut_ptr(), out.len()) }
}

pub fn list_decide(n: usize, scene: &mut Scene<u16, u8>) -> u32 {
    list(thwartpin_list_decide, n, scene)
}

pub fn list_forced(n: usize, scene: &mut Scene<u16, u8>) -> u32 {
    list(thwartpin_list_forced, n, scene)
}

pub fn list_next(n: usize, scene: &mut Scene<u16, u8>) -> u32 {
    list(thwartpin_list_next, n, scene)
}

pub fn list_clash(n: usize, scene: &mut Scene<u16, u16>) -> u32 {
    list(thwartpin_list_clash, n, scene)
}

pub fn list_ties(n: usize, scene: &mut Scene<u16, u16>) -> u32 {
    list(thwartpin_list_ties, n, scene)
}

pub fn read_book(scene: &mut Scene<u8, u16>) -> u32 {
    let Scene { input, area, out, .. } = scene;
    unsafe { thwartpin_read_book(input.ptr(), input.len(), area.mut_ptr(), area.len(), out.mut_ptr(), out.len()) }
}

fn host(call: HostCall, scene: &mut Scene<u8, u8>) -> u32 {
    let Scene { input, area, .. } = scene;
    unsafe { call(input.ptr(), input.len(), area.mut_ptr(), area.len()) }
}

pub fn host_decide(scene: &mut Scene<u8, u8>) -> u32 {
    host(thwartpin_decide, scene)
}

pub fn host_next(scene: &mut Scene<u8, u8>) -> u32 {
    host(thwartpin_next, scene)
}
