//! Calls of operations, sets of names, typing and registers, each with the values that it answers.
use super::fixtures::{
    Does, Fields, PLAIN, anchor, are_ranges, has_these, looks_of, name, op_with, set_of,
};
use char_files::{Anchor, Name, SiteNo, TextNo};
use fallible::{Global, Vec};
use looks::{Key, OUT_OF_MEMORY, Refusal, Register};
use operations::{Kind, NameRange, NameSet, Typing, named};

// An Insert below another site's character.
const INSERT: Fields = Fields {
    site: 2,
    seq: 2,
    stamp: 3,
    does: Does::Insert(Some((1, 5)), 4, b"Y"),
};

const CHANGE: Does = Does::ChangeLooks(7, (b"Syntax12.Scn.Fnt", 15, -3), &[(1, 3, 2), (2, 0, 1)]);

// Changes, and the names that each of them mentions.
const MENTIONED: &[(Does, &[(u16, u32)])] = &[
    (Does::Insert(None, 0, b"Oberon"), &[]),
    (Does::Insert(Some((2, 0)), 1, b"Y"), &[(2, 0)]),
    (
        Does::Delete(&[(1, 3, 2), (2, 0, 1)]),
        &[(1, 3), (1, 4), (2, 0)],
    ),
    (
        Does::Restore(&[(1, 2, 2), (2, 3, 1)]),
        &[(1, 2), (1, 3), (2, 3)],
    ),
    (CHANGE, &[(1, 3), (1, 4), (2, 0)]),
];

#[test]
fn operations_are_copied_compared_and_asked_for_their_names() {
    for (i, (does, names)) in MENTIONED.iter().enumerate() {
        let fields = Fields {
            does: *does,
            ..INSERT
        };
        let op = op_with(Global, fields).unwrap();
        let copy = op.copy().unwrap();
        assert!(has_these(&op, fields) && has_these(&copy, fields));
        assert!(named(&op).eq(names.iter().map(|parts| name(*parts).unwrap())));
        for (j, (other, _)) in MENTIONED.iter().enumerate() {
            let other = op_with(
                Global,
                Fields {
                    does: *other,
                    ..INSERT
                },
            )
            .unwrap();
            assert_eq!(op.is_same(&other), i == j);
        }
    }
}

// Seq, stamp, length of the file, how many bytes; and whether there is such an Insert of site 2 below its own first character.
const LIMITS: &[(u32, u64, u32, usize, bool)] = &[
    (0xffff_ffff, 0xffff_ffff_ffff, 1, 1, true),
    (0, 1, 1, 1, false),
    (1, 0, 1, 1, false),
    (1, 1 << 48, 1, 1, false),
    (1, 1, 1, 0, false),
    (1, 1, 1, 4096, true),
    (1, 1, 1, 4097, false),
    (1, 1, 0x00ff_fffe, 2, true),
    (1, 1, 0x00ff_fffe, 3, false),
    (2, 2, 0, 1, false),
];

static LETTERS: [u8; 4097] = [b'a'; 4097];

#[test]
fn fields_have_limits() {
    for (seq, stamp, at, len, want) in LIMITS {
        let fields = Fields {
            site: 2,
            seq: *seq,
            stamp: *stamp,
            does: Does::Insert(Some((2, 0)), *at, &LETTERS[..*len]),
        };
        assert_eq!(op_with(Global, fields).is_some(), *want);
    }
    for (does, want) in [
        (Does::Delete(&[]), false),
        (CHANGE, true),
        (
            Does::ChangeLooks(6, (b"Syntax12.Scn.Fnt", 7, 2), &[(1, 0, 1)]),
            false,
        ),
    ] {
        assert_eq!(op_with(Global, Fields { does, ..INSERT }).is_some(), want);
    }
}

#[test]
fn names_go_into_a_set_up_to_1024_ranges() {
    let mut set = set_of(Global, &[(1, 4, 1), (1, 6, 1), (0xffff, 0x00ff_ffff, 1)]).unwrap();
    let before = set.copy().unwrap();
    set.insert(name((1, 5)).unwrap()).unwrap();
    assert!(are_ranges(&set, &[(1, 4, 3), (0xffff, 0x00ff_ffff, 1)]));
    assert!(set.contains(name((1, 5)).unwrap()) && !before.contains(name((1, 5)).unwrap()));
    assert!(!set.is_same(&before) && set.is_same(&set.copy().unwrap()));
    let mut full = NameSet::new(Global);
    for index in 0..1024 {
        full.insert(name((1, 2 * index)).unwrap()).unwrap();
    }
    assert_eq!(full.insert(name((2, 0)).unwrap()), Err(Refusal::Scattered));
    assert_eq!(full.ranges().len(), 1024);
    full.insert(name((1, 1)).unwrap()).unwrap();
    assert_eq!(full.ranges().len(), 1023);
}

fn ranges_of(given: &[(u16, u32, u32)]) -> Vec<NameRange> {
    let mut ranges = Vec::new(Global);
    for (site, at, len) in given {
        let range = NameRange::new(SiteNo::new(*site).unwrap(), *at, *len);
        ranges.push(range).ok().unwrap();
    }
    ranges
}

#[test]
fn ranges_in_any_order_make_a_set() {
    let set = NameSet::of_all(ranges_of(&[(2, 9, 1), (1, 6, 4), (1, 3, 5), (1, 10, 1)])).unwrap();
    assert!(are_ranges(&set, &[(1, 3, 8), (2, 9, 1)]));
    let scattered: std::vec::Vec<_> = (0..1025).map(|index| (1, 2 * index, 1)).collect();
    let refused = NameSet::of_all(ranges_of(&scattered)).err();
    assert_eq!(refused, Some(Refusal::Scattered));
}

fn typing(seq: u32, stamp: u64, at: u32, cause: Option<(u16, u32)>) -> Typing {
    Typing {
        text: TextNo::new(1).unwrap(),
        site: SiteNo::new(2).unwrap(),
        seq,
        stamp,
        at,
        cause: anchor(cause).unwrap(),
        looks: looks_of(PLAIN).unwrap(),
    }
}

#[test]
fn letters_have_room_up_to_the_limits() {
    for (seq, stamp, at, cause, room) in [
        (1, 1, 0, None, 0x0100_0000),
        (0, 1, 0, None, 0),
        (0xffff_fffd, 1, 0, None, 3),
        (1, 0xffff_ffff_fffd, 0, None, 3),
        (1, u64::MAX, 0, None, 0),
        (1, 1, 0x00ff_fffd, None, 3),
        (6, 6, 5, Some((2, 5)), 0),
    ] {
        assert_eq!(typing(seq, stamp, at, cause).room(), room);
    }
    let letter = typing(7, 9, 4, Some((1, 5))).letter(Global, 0xff).unwrap();
    assert_eq!(
        (letter.site().get(), letter.seq(), letter.stamp()),
        (2, 7, 9)
    );
    let Kind::Insert {
        cause, at, bytes, ..
    } = letter.kind()
    else {
        panic!("no Insert");
    };
    assert_eq!((*cause, *at), (Anchor::At(name((1, 5)).unwrap()), 4));
    assert_eq!(bytes.as_slice(), [0xff]);
    assert!(Name::new(SiteNo::new(2).unwrap(), 0x0100_0000).is_none());
}

#[test]
fn the_greater_key_holds_and_refusals_have_numbers() {
    for (stamp, site, want) in [(5, 2, 'a'), (4, 9, 'a'), (5, 3, 'b'), (6, 1, 'b')] {
        let mut register = Register {
            key: Key { stamp: 5, site: 2 },
            value: 'a',
        };
        register.offer(Key { stamp, site }, 'b');
        assert_eq!(register.value, want);
    }
    let refused = Refusal::within_memory(1, 0).map_err(|refusal| refusal.number());
    assert_eq!((refused, OUT_OF_MEMORY), (Err(7), 7));
    assert_eq!(
        (Refusal::FileSpent.number(), Refusal::SeqSpent.number()),
        (10, 23)
    );
}
