//! The calls that compute the definitions slowly, over sets of operations whose order and text were worked out by hand.
#[path = "../operations/fixtures.rs"]
mod fixtures;

use char_files::Name;
use fallible::Global;
use fixtures::{Does, LooksParts, PLAIN, Told, are_looks, name, ops_of};
use operations::Op;
use tree_order::{has_char, is_good, slow_before, slow_order, slow_place, slow_shown};

// Operations, with the order of their characters, the hidden ones among them, the text, and the looks of all of it.
struct Case {
    ops: &'static [Told],
    order: &'static [(u16, u32)],
    hidden: &'static [(u16, u32)],
    shown: &'static [u8],
    looks: LooksParts,
}

const CASES: &[Case] = &[
    Case {
        ops: &[],
        order: &[],
        hidden: &[],
        shown: b"",
        looks: PLAIN,
    },
    // Three sites, one cause.
    Case {
        ops: &[
            (1, 1, 1, Does::Insert(None, 0, b"AC")),
            (1, 2, 2, Does::Insert(Some((1, 0)), 2, b"B")),
            (2, 1, 2, Does::Insert(Some((1, 0)), 0, b"X")),
            (2, 2, 3, Does::Insert(Some((2, 0)), 1, b"Y")),
        ],
        order: &[(1, 0), (2, 0), (2, 1), (1, 2), (1, 1)],
        hidden: &[],
        shown: b"AXYBC",
        looks: PLAIN,
    },
    // After a deleted character, past another.
    Case {
        ops: &[
            (1, 1, 1, Does::Insert(None, 0, b"abc")),
            (1, 2, 2, Does::Delete(&[(1, 1, 1)])),
            (3, 1, 2, Does::Insert(Some((1, 1)), 0, b"Z")),
            (3, 2, 3, Does::Delete(&[(3, 0, 1)])),
            (2, 1, 2, Does::Insert(Some((1, 1)), 0, b"X")),
        ],
        order: &[(1, 0), (1, 1), (3, 0), (2, 0), (1, 2)],
        hidden: &[(1, 1), (3, 0)],
        shown: b"aXc",
        looks: PLAIN,
    },
    // A Restore against a Delete of a greater key.
    Case {
        ops: &[
            (1, 1, 1, Does::Insert(None, 0, b"abc")),
            (1, 2, 2, Does::Delete(&[(1, 1, 1)])),
            (2, 1, 2, Does::Insert(Some((1, 2)), 0, b"x")),
            (2, 2, 3, Does::Delete(&[(1, 1, 1)])),
            (1, 3, 3, Does::Restore(&[(1, 1, 1)])),
        ],
        order: &[(1, 0), (1, 1), (1, 2), (2, 0)],
        hidden: &[(1, 1)],
        shown: b"acx",
        looks: PLAIN,
    },
    // Looks by attribute.
    Case {
        ops: &[
            (1, 1, 1, Does::Insert(None, 0, b"Q")),
            (
                1,
                2,
                2,
                Does::ChangeLooks(6, (b"Oberon10.Scn.Fnt", 5, -3), &[(1, 0, 1)]),
            ),
            (
                2,
                1,
                2,
                Does::ChangeLooks(3, (b"Mono.Fnt", 9, 0), &[(1, 0, 1)]),
            ),
        ],
        order: &[(1, 0)],
        hidden: &[],
        shown: b"Q",
        looks: (b"Mono.Fnt", 9, -3),
    },
];

fn has_order(ops: &[Op], names: &[Name]) {
    assert_eq!(slow_order(Global, ops).unwrap().as_slice(), names);
    for (i, c) in names.iter().enumerate() {
        assert!(has_char(ops, *c));
        for (j, d) in names.iter().enumerate() {
            assert_eq!(slow_before(Global, ops, *c, *d), Ok(i < j));
        }
    }
    assert!(!has_char(ops, name((9, 9)).unwrap()));
}

fn shows(ops: &[Op], names: &[Name], case: &Case) {
    let shown = slow_shown(Global, ops).unwrap();
    let mut left = shown.iter().zip(case.shown);
    let mut count = 0;
    for c in names {
        let parts = (c.site().get(), c.off());
        if !case.hidden.contains(&parts) {
            let (char, byte) = left.next().expect("a character more");
            assert_eq!((char.name, char.byte), (*c, *byte));
            assert!(are_looks(&char.looks, case.looks));
            count += 1;
        }
        assert_eq!(slow_place(Global, ops, *c), Ok(count));
    }
    assert_eq!(
        (count, shown.len()),
        (case.shown.len() as u64, case.shown.len())
    );
}

#[test]
fn the_slow_calls_answer_what_was_worked_out() {
    for case in CASES {
        let mut ops = ops_of(case.ops);
        let mut names = Vec::new();
        names.extend(case.order.iter().map(|parts| name(*parts).unwrap()));
        for _ in 0..2 {
            assert_eq!(is_good(Global, &ops), Ok(true));
            has_order(&ops, &names);
            shows(&ops, &names, case);
            ops.reverse();
        }
    }
}

const AC: Told = (1, 1, 1, Does::Insert(None, 0, b"AC"));

// Sets of which each breaks one rule.
const BAD: &[&[Told]] = &[
    &[AC, (1, 1, 1, Does::Insert(None, 0, b"AD"))],
    &[(1, 2, 1, Does::Insert(None, 0, b"A"))],
    &[AC, (2, 1, 2, Does::Insert(Some((1, 2)), 0, b"X"))],
    &[AC, (1, 2, 2, Does::Insert(None, 3, b"B"))],
    &[AC, (2, 1, 1, Does::Insert(Some((1, 0)), 0, b"X"))],
    &[AC, (1, 2, 2, Does::Restore(&[(2, 0, 1)]))],
];

#[test]
fn sets_that_break_a_rule_arent_good() {
    for told in BAD {
        assert_eq!(is_good(Global, &ops_of(told)), Ok(false));
    }
}
