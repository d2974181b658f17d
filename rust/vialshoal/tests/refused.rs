//! Each allocation of each call is refused in turn: the call answers that memory was refused, or does what it does anyhow; what it
//! didn't do it does when it is made again, and sites that took the same show the same.

mod support;

use std::alloc::{GlobalAlloc, Layout, System};
use std::cell::Cell;
use support::shown;
use vialshoal::{Colour, EditError, Error, Form, LooksChange, Messages, NameRange, Refusal, Text};

thread_local! {
    // How many allocations are let through before one is refused; none is refused below 0.
    static LEFT: Cell<i64> = const { Cell::new(-1) };
}

struct Refusing;

fn is_refused() -> bool {
    let left = LEFT.get();
    if 0 <= left {
        LEFT.set(left - 1);
    }
    left == 0
}

// SAFETY: what isn't refused is the system's.
unsafe impl GlobalAlloc for Refusing {
    unsafe fn alloc(&self, layout: Layout) -> *mut u8 {
        if is_refused() {
            return std::ptr::null_mut();
        }
        // SAFETY: as the caller's.
        unsafe { System.alloc(layout) }
    }

    unsafe fn dealloc(&self, at: *mut u8, layout: Layout) {
        // SAFETY: as the caller's.
        unsafe { System.dealloc(at, layout) }
    }

    unsafe fn realloc(&self, at: *mut u8, layout: Layout, size: usize) -> *mut u8 {
        if is_refused() {
            return std::ptr::null_mut();
        }
        // SAFETY: as the caller's.
        unsafe { System.realloc(at, layout, size) }
    }
}

#[global_allocator]
static ALLOCATOR: Refusing = Refusing;

// A call's answer where its allocation after so many is refused, and whether it had so many.
fn refusing<T>(after: i64, call: impl FnOnce() -> T) -> (T, bool) {
    LEFT.set(after);
    let answer = call();
    let was_refused = LEFT.replace(-1) == -1;
    (answer, was_refused)
}

struct Tally {
    refused: u32,
}

impl Tally {
    // Makes a call with each of its allocations refused in turn, and then with none; answers what that did.
    fn each<T>(&mut self, what: &str, mut call: impl FnMut() -> Result<T, Error>) -> T {
        for after in 0.. {
            let (answer, was_refused) = refusing(after, &mut call);
            match answer {
                Ok(done) => {
                    self.refused += u32::from(was_refused);
                    return done;
                }
                Err(Error::Refused(Refusal::OutOfMemory { .. })) => self.refused += 1,
                Err(why) => panic!("{what}: {why}"),
            }
        }
        unreachable!()
    }
}

// An edit of which no part was done, if not all was.
fn whole(answer: Result<Messages, EditError>) -> Result<Messages, Error> {
    answer.map_err(|error| {
        assert!(error.sent.is_empty());
        error.why
    })
}

#[test]
fn what_is_refused_memory_is_done_when_it_comes_again() -> Result<(), Error> {
    let mut tally = Tally { refused: 0 };
    let mut a = tally.each("new", || Text::new(1, 1));
    let mut b = tally.each("new", || Text::new(1, 2));
    let red = LooksChange {
        colour: Colour::new(3),
        ..LooksChange::default()
    };
    let names = [NameRange {
        site: 1,
        offset: 0,
        len: 2,
    }];
    let mut made = Vec::new();
    for at in 0..40 {
        made.push(tally.each("insert", || whole(a.insert(at, b"abcdefgh"))));
        made.push(tally.each("delete", || whole(a.delete(at..at + 7))));
    }
    made.push(tally.each("change_looks", || whole(a.change_looks(3..9, &red))));
    made.push(tally.each("restore", || whole(a.restore())));
    made.push(tally.each("recall", || whole(a.recall(5))));
    made.push(tally.each("delete_names", || whole(a.delete_names(&names))));
    made.push(tally.each("restore_names", || whole(a.restore_names(&names))));
    let messages: Vec<Vec<u8>> = made.iter().flatten().map(<[u8]>::to_vec).collect();
    // Two by two in the wrong order, so that one waits; it may go on waiting where memory is refused.
    for pair in messages.chunks(2) {
        for message in pair.iter().rev() {
            tally.each("take", || b.take(message));
        }
        b.settle();
    }
    assert_eq!(shown(&a), shown(&b));
    let mut c = Text::new(1, 3)?;
    let chunks = tally.each("pack", || a.pack(&[]));
    for chunk in &chunks {
        tally.each("unpack", || c.unpack(chunk).map_err(|error| error.why));
    }
    let mut d = Text::new(1, 4)?;
    tally.each("merge", || d.merge(&a).map_err(|error| error.why));
    let fronts = tally.each("fronts", || a.fronts());
    let past = tally.each("past", || a.past(&fronts));
    assert!(past.view().bytes(0..a.len())?.eq(shown(&a)));
    for form in [Form::Messages, Form::Packed] {
        let file = tally.each("store", || a.store(form));
        let loaded = tally.each("load", || Text::load(&file));
        assert_eq!(shown(&loaded), shown(&a));
    }
    let count = tally.each("since", || {
        let mut since = a.since(&[])?;
        since.try_fold(0, |count, message| message.map(|_| count + 1))
    });
    assert_eq!(count, messages.len());
    for text in [&c, &d] {
        assert_eq!(shown(text), shown(&a));
    }
    assert!(tally.refused > 500, "{} were refused", tally.refused);
    Ok(())
}
