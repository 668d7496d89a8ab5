//! Works a line by the library: library PLAN JOURNAL
//!
//! It makes the calls of a journal, one after another, and prints the journal that comes of them; menglazou.h has the
//! functions.

use std::ffi::c_void;
use std::io::Write;
use std::ptr::null_mut;

const DONE: u32 = 0;

/// A line, as the library holds it.
#[repr(C)]
struct Line {
    open: u32,
    at: *mut c_void,
}

#[repr(C)]
#[derive(Default)]
struct Fault {
    line: u32,
    cause: u32,
}

/// An entry: its number, its call and its reply, of which nothing is read here.
#[repr(C)]
#[derive(Default)]
struct Entry {
    number: u64,
    call: [u32; 5],
    reply: Reply,
}

#[repr(C)]
#[derive(Default)]
struct Reply {
    count: u64,
    rest: [u32; 10],
}

unsafe extern "C" {
    fn menglazou_open(line: &mut Line, plan: *const u8, size: usize, fault: &mut Fault) -> u32;
    fn menglazou_close(line: &mut Line) -> u32;
    fn menglazou_box(line: &mut Line, name: *const u8, size: usize, number: &mut u32) -> u32;
    fn menglazou_perform_text(
        line: &mut Line,
        number: u32,
        text: *const u8,
        size: usize,
        entry: &mut Entry,
        fault: &mut Fault,
    ) -> u32;
    fn menglazou_journal(line: &mut Line, size: &mut u64) -> u32;
    fn menglazou_text(line: &mut Line, room: *mut u8, room_size: usize, size: &mut u64) -> u32;
}

/// Makes the call of an entry, as `3 Oak 09:02 turn down line_clear`.
fn make_call(line: &mut Line, told: &str) -> Option<()> {
    let (_, rest) = told.split_once(' ')?;
    let (name, call) = rest.split_once(' ')?;
    let (mut number, mut entry, mut fault) = (0, Entry::default(), Fault::default());
    let found = unsafe { menglazou_box(line, name.as_ptr(), name.len(), &mut number) };
    let made = unsafe {
        menglazou_perform_text(line, number, call.as_ptr(), call.len(), &mut entry, &mut fault)
    };
    (found == DONE && made == DONE).then_some(())
}

/// The text of the journal of the calls made so far.
fn journal_of(line: &mut Line) -> Option<Vec<u8>> {
    let mut size = 0;
    if unsafe { menglazou_journal(line, &mut size) } != DONE {
        return None;
    }
    let mut room = vec![0; size as usize];
    let told = unsafe { menglazou_text(line, room.as_mut_ptr(), room.len(), &mut size) };
    (told == DONE).then_some(room)
}

fn work(plan: &[u8], journal: &str) -> Option<Vec<u8>> {
    let mut line = Line { open: 0, at: null_mut() };
    let mut fault = Fault::default();
    if unsafe { menglazou_open(&mut line, plan.as_ptr(), plan.len(), &mut fault) } != DONE {
        return None;
    }
    for told in journal.lines() {
        if let Some((call, _)) = told.split_once(" -> ") {
            make_call(&mut line, call)?;
        }
    }
    let text = journal_of(&mut line);
    unsafe { menglazou_close(&mut line) };
    text
}

fn main() {
    let words: Vec<String> = std::env::args().collect();
    let plan = std::fs::read(&words[1]).expect("a plan");
    let journal = std::fs::read_to_string(&words[2]).expect("a journal");
    let text = work(&plan, &journal).expect("the line is worked");
    std::io::stdout().write_all(&text).expect("the output");
}
