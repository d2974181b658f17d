//! `PieceList` and the ring of its pieces: calls whose answers were worked out by hand, and random edits beside a plain list.
mod random_edits;
mod ring;

use char_files::{Anchor, Name, SiteNo};
use fallible::{Global, Vec};
use list_changes::Change;
use looks::{Colour, Key, Looks, Sel};
use operations::NameSet;
use piece_list::{MAX_PIECE, PieceList, Run, Spot};

// Names as the site, the first offset, and how many there are.
type Names = (u16, u32, u32);

fn name(site: u16, off: u32) -> Name {
    Name::new(SiteNo::new(site).unwrap(), off).unwrap()
}

fn key(stamp: u64, site: u16) -> Key {
    Key { stamp, site }
}

// The stretches that are shown.
fn shown(list: &PieceList) -> std::vec::Vec<Names> {
    list.walk()
        .map(|run| (run.site.get(), run.off, run.len))
        .collect()
}

// Places a run of a site under a key of its own.
fn place(list: &mut PieceList, (site, off, len): Names, stamp: u64, cause: Anchor) {
    let run = Run {
        site: SiteNo::new(site).unwrap(),
        off,
        len,
        key: key(stamp, site),
        rising: len == 1,
        looks: Looks::plain(),
    };
    list.place(run, cause).unwrap();
}

fn set_of(ranges: &[Names]) -> NameSet {
    let mut set = NameSet::new(Global);
    for (site, off, len) in ranges {
        for at in *off..*off + *len {
            set.insert(name(*site, at)).unwrap();
        }
    }
    set
}

// A list of six characters of site 1 in one piece.
fn six() -> PieceList {
    let mut list = PieceList::new(Global).unwrap();
    place(&mut list, (1, 0, 6), 1, Anchor::Root);
    list
}

#[test]
fn placing_counts_its_comparisons() {
    let mut list = PieceList::new(Global).unwrap();
    assert!(list.locate(name(1, 0)).is_none() && list.walk().next().is_none());
    assert_eq!((list.shown_len(), list.steps()), (0, 0));
    for (names, stamp, cause, steps, after) in [
        ((1, 0, 2), 1, None, 0, &[(1, 0, 2)][..]),
        (
            (2, 0, 1),
            2,
            Some((1, 0)),
            2,
            &[(1, 0, 1), (2, 0, 1), (1, 1, 1)],
        ),
        (
            (2, 1, 1),
            3,
            Some((2, 0)),
            2,
            &[(1, 0, 1), (2, 0, 2), (1, 1, 1)],
        ),
        (
            (1, 2, 1),
            2,
            Some((1, 0)),
            3,
            &[(1, 0, 1), (2, 0, 2), (1, 2, 1), (1, 1, 1)],
        ),
    ] {
        let cause = cause.map_or(Anchor::Root, |(site, off)| Anchor::At(name(site, off)));
        place(&mut list, names, stamp, cause);
        assert_eq!((list.steps(), shown(&list).as_slice()), (steps, after));
    }
}

#[test]
fn a_piece_is_cut_before_a_name() {
    let mut list = six();
    let third = list.locate(name(1, 2)).unwrap();
    assert_eq!((third.within, list.steps()), (2, 1));
    let rest = list.split(third).unwrap();
    assert_eq!((rest.within, list.locate(name(1, 2))), (0, Some(rest)));
    assert_eq!(shown(&list), [(1, 0, 2), (1, 2, 4)]);
    for (pos, spot) in [
        (
            0,
            Spot {
                piece: 0,
                within: 0,
            },
        ),
        (
            1,
            Spot {
                piece: 0,
                within: 1,
            },
        ),
        (
            2,
            Spot {
                piece: 1,
                within: 0,
            },
        ),
        (
            5,
            Spot {
                piece: 1,
                within: 3,
            },
        ),
    ] {
        assert_eq!(list.locate_pos(pos), spot);
    }
    assert_eq!(
        (list.shown_to(name(1, 2)), list.shown_to(name(2, 0))),
        (Some(3), None)
    );
}

#[test]
fn names_are_hidden_shown_and_given_looks() {
    let mut list = six();
    let two = set_of(&[(1, 4, 2), (1, 0, 1)]);
    list.hide(&two, key(2, 1)).unwrap();
    assert_eq!(shown(&list), [(1, 1, 3)]);
    assert!(list.has_hidden(&set_of(&[(1, 3, 2)])) && !list.has_hidden(&set_of(&[(1, 1, 3)])));
    assert_eq!((list.shown_len(), list.shown_to(name(1, 4))), (3, Some(3)));
    list.hide(&set_of(&[(1, 2, 1)]), key(3, 2)).unwrap();
    list.reveal(&set_of(&[(1, 2, 1)]), key(3, 1)).unwrap();
    assert_eq!(shown(&list), [(1, 1, 1), (1, 3, 1)]);
    list.reveal(&set_of(&[(1, 0, 6)]), key(4, 1)).unwrap();
    let red = Looks {
        colour: Colour::new(5).unwrap(),
        ..Looks::plain()
    };
    let colour = Sel::new(2).unwrap();
    list.relook(&set_of(&[(1, 0, 1)]), colour, &red, key(2, 2))
        .unwrap();
    list.relook(&set_of(&[(1, 0, 2)]), colour, &Looks::plain(), key(2, 1))
        .unwrap();
    assert_eq!(
        (list.shown_at(0), list.shown_at(1)),
        ((name(1, 0), red), (name(1, 1), Looks::plain()))
    );
    let walked = list.walk_between(3, 9).map(|run| (run.off, run.len));
    assert!(walked.eq([(3, 1), (4, 2)]));
}

// The changes that an edit notes behind an entry that was there: an Insert, a Delete or a Replace, and its stretch.
#[test]
fn what_shows_otherwise_is_noted() {
    let mut list = six();
    let mut note: Vec<Change> = Vec::new(Global);
    let middle = set_of(&[(1, 1, 3)]);
    list.hide_noting(&middle, key(2, 1), &mut note).unwrap();
    list.hide_noting(&middle, key(3, 1), &mut note).unwrap();
    list.reveal_noting(&set_of(&[(1, 0, 2)]), key(4, 1), &mut note)
        .unwrap();
    let (colour, plain) = (Sel::new(2).unwrap(), Looks::plain());
    list.relook_noting(&middle, colour, &plain, key(5, 1), &mut note)
        .unwrap();
    let noted = note.iter().map(|change| (change.beg, change.end));
    assert!(noted.eq([(1, 4), (1, 2)]));
    assert_eq!(shown(&list), [(1, 0, 1), (1, 1, 1), (1, 4, 2)]);
}

#[test]
fn letters_are_one_piece_up_to_the_longest_and_keep_their_keys() {
    let mut list = PieceList::new(Global).unwrap();
    for off in 0..=MAX_PIECE {
        let cause = off
            .checked_sub(1)
            .map_or(Anchor::Root, |last| Anchor::At(name(1, last)));
        place(&mut list, (1, off, 1), u64::from(off) + 7, cause);
    }
    assert_eq!(shown(&list), [(1, 0, MAX_PIECE), (1, MAX_PIECE, 1)]);
    for off in [1, 2_000, MAX_PIECE - 1] {
        let spot = list.locate(name(1, off)).unwrap();
        list.split(spot).unwrap();
        for at in [0, off - 1, off, off + 1] {
            assert_eq!(list.key_of(name(1, at)), Some(key(u64::from(at) + 7, 1)));
        }
    }
    assert!(list.key_of(name(1, MAX_PIECE + 1)).is_none());
}

// One comparison finds any of a million pieces.
#[test]
fn a_million_pieces_are_found_at_once() {
    let mut list = PieceList::new(Global).unwrap();
    for i in 0..250 {
        place(
            &mut list,
            (1, i * 4000, 4000),
            u64::from(i) + 1,
            Anchor::Root,
        );
    }
    for off in (0..1_000_000).rev() {
        let spot = list.locate(name(1, off)).unwrap();
        list.split(spot).unwrap();
    }
    for off in 0..1_000_000 {
        assert_eq!(list.locate(name(1, off)).unwrap().within, 0);
        assert_eq!(list.steps(), 1);
    }
}
