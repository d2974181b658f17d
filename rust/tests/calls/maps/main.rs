//! `BTreeMap` beside the one of Rust's library, how many keys a call compares, and an insertion that is refused memory.
use calls::is;
use fallible::{BTreeMap, Fail, Global};
use std::alloc::{GlobalAlloc, Layout, System};
use std::cell::Cell;
use std::cmp::Ordering;

thread_local! {
    static COMPARED: Cell<u32> = const { Cell::new(0) };
    static REFUSES: Cell<bool> = const { Cell::new(false) };
}

struct Refusing;

// SAFETY: what isn't refused is the system's.
unsafe impl GlobalAlloc for Refusing {
    unsafe fn alloc(&self, layout: Layout) -> *mut u8 {
        if REFUSES.get() {
            return std::ptr::null_mut();
        }
        // SAFETY: as the caller's.
        unsafe { System.alloc(layout) }
    }

    unsafe fn dealloc(&self, at: *mut u8, layout: Layout) {
        // SAFETY: as the caller's.
        unsafe { System.dealloc(at, layout) }
    }
}

#[global_allocator]
static ALLOCATOR: Refusing = Refusing;

// A number that counts how often it is compared.
#[derive(Debug, PartialEq, Eq)]
struct Counted(u64);

impl PartialOrd for Counted {
    fn partial_cmp(&self, other: &Counted) -> Option<Ordering> {
        Some(self.cmp(other))
    }
}

impl Ord for Counted {
    fn cmp(&self, other: &Counted) -> Ordering {
        COMPARED.set(COMPARED.get() + 1);
        self.0.cmp(&other.0)
    }
}

// Keys in an order that a multiplication mixes: `turn` is odd, so that none comes twice before `2 ^ bits` of them.
fn mixed(turn: u64, bits: u32) -> impl Iterator<Item = u64> {
    (0..1 << bits).map(move |at: u64| at.wrapping_mul(turn) & ((1 << bits) - 1))
}

#[test]
fn answers_as_rusts_own() -> Result<(), Fail> {
    for turn in [1, 3, 5, 0x2545, 0x9e37_79b9, 0xffff_ffff] {
        let (mut map, mut plain) = (BTreeMap::new(Global), std::collections::BTreeMap::new());
        for (at, key) in mixed(turn, 10).enumerate() {
            // Each key comes twice, after which another half of all has come.
            let key = if at % 3 == 2 { key / 2 } else { key };
            is(map.contains_key(&key) == plain.contains_key(&key), "another key is there")?;
            is(map.insert(key, at)? == plain.insert(key, at), "another value was there")?;
            if let (Some(one), Some(other)) = (map.get_mut(&(key / 2)), plain.get_mut(&(key / 2))) {
                *one += 1;
                *other += 1;
            }
        }
        for key in 0..1 << 11 {
            is(map.get(&key) == plain.get(&key), "another value")?;
            is(map.get_mut(&key) == plain.get_mut(&key), "another value to be changed")?;
        }
    }
    Ok(())
}

#[test]
fn compares_few_keys_in_any_order() -> Result<(), Fail> {
    const BITS: u32 = 12;
    // From the least, from the greatest, from both ends by turns, and mixed.
    let last = (1 << BITS) - 1;
    let ends = move |at: u64| if at % 2 == 0 { at / 2 } else { last - at / 2 };
    let orders: [Box<dyn Fn(u64) -> u64>; 4] = [
        Box::new(|at| at),
        Box::new(move |at| last - at),
        Box::new(ends),
        Box::new(move |at| at.wrapping_mul(0x9e37_79b9) & last),
    ];
    for order in orders {
        let mut map = BTreeMap::new(Global);
        for at in 0..=last {
            COMPARED.set(0);
            map.insert(Counted(order(at)), at)?;
            // A path to a leaf has at most 2 nodes of a level, and is walked twice.
            let most = 4 * (at + 1).ilog2() + 4;
            is(COMPARED.get() <= most, "more keys are compared than a path has")?;
        }
        for key in 0..=last {
            COMPARED.set(0);
            is(map.get(&Counted(key)).is_some(), "a key is missing")?;
            is(COMPARED.get() <= 2 * (BITS + 1), "a path is too long")?;
        }
    }
    Ok(())
}

#[test]
fn is_as_before_where_memory_is_refused() -> Result<(), Fail> {
    let mut map = BTreeMap::new(Global);
    let mut refused = 0;
    for key in 0..100_u64 {
        REFUSES.set(true);
        let answer = map.insert(key, key + 1);
        REFUSES.set(false);
        match answer {
            Ok(before) => is(before.is_none(), "a value was there")?,
            Err(back) => {
                refused += 1;
                is(back.value == (key, key + 1), "another is given back")?;
                is(!map.contains_key(&key), "it is there all the same")?;
                is((0..key).all(|each| map.get(&each) == Some(&(each + 1))), "one is lost")?;
                map.insert(key, key + 1)?;
            }
        }
        REFUSES.set(true);
        let replaced = map.insert(key, key + 1);
        REFUSES.set(false);
        is(replaced == Ok(Some(key + 1)), "a value that is replaced takes memory")?;
    }
    is(refused > 0, "nothing was refused")
}
