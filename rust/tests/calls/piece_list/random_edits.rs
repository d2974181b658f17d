//! 100,000 random edits of a list, beside a plain list of its characters; both are compared after each thousandth.
use super::{key, name, place, set_of};
use char_files::Anchor;
use fallible::Global;
use piece_list::PieceList;

// Runs are typed under stamps up to this one; what hides or shows again has greater ones than twice this.
const STAMPS: u64 = 1_000;

#[derive(Clone, Copy)]
struct Known {
    site: u16,
    off: u32,
    stamp: u64,
    hidden: bool,
}

// Numbers that are the same in each run: a linear congruential generator.
struct Dice(u64);

impl Dice {
    fn below(&mut self, end: usize) -> usize {
        let next = self.0.wrapping_mul(6_364_136_223_846_793_005);
        self.0 = next.wrapping_add(1_442_695_040_888_963_407);
        ((self.0 >> 33) as usize).checked_rem(end).unwrap_or(0)
    }
}

struct Both {
    list: PieceList,
    plain: Vec<Known>,
}

impl Both {
    // Types a run after so many characters, and returns how many stand before it. No offset is used twice.
    fn types_run(&mut self, site: u16, len: u32, stamp: u64, earlier: usize) -> usize {
        let off = self.plain.len() as u32;
        let cause = earlier.checked_sub(1).map_or(Anchor::Root, |last| {
            Anchor::At(name(self.plain[last].site, self.plain[last].off))
        });
        place(&mut self.list, (site, off, len), stamp, cause);
        let greater = |it: &&Known| (it.stamp, it.site) > (stamp, site);
        let at = earlier + self.plain[earlier..].iter().take_while(greater).count();
        let run = (off..off + len).map(|off| Known {
            site,
            off,
            stamp,
            hidden: false,
        });
        self.plain.splice(at..at, run);
        at
    }

    // Types up to 6 letters one after the other, or up to 3 characters at once.
    fn types(&mut self, dice: &mut Dice) {
        let site = 1 + dice.below(2) as u16;
        let stamp = 1 + dice.below(STAMPS as usize) as u64;
        let mut earlier = dice.below(self.plain.len() + 1);
        if dice.below(2) == 0 {
            self.types_run(site, 1 + dice.below(3) as u32, stamp, earlier);
            return;
        }
        for i in 0..=dice.below(6) as u64 {
            earlier = self.types_run(site, 1, stamp + i, earlier) + 1;
        }
    }

    // Hides up to 5 neighbours, or shows them again.
    fn switches(&mut self, dice: &mut Dice, hidden: bool, stamp: u64) {
        let beg = dice.below(self.plain.len());
        let end = (beg + 1 + dice.below(5)).min(self.plain.len());
        let mut ranges = Vec::new();
        for known in &mut self.plain[beg..end] {
            known.hidden = hidden;
            ranges.push((known.site, known.off, 1));
        }
        let names = set_of(&ranges);
        let switched = if hidden {
            self.list.hide(&names, key(stamp, 1))
        } else {
            self.list.reveal(&names, key(stamp, 1))
        };
        switched.unwrap();
    }

    fn splits(&mut self, dice: &mut Dice) {
        if let Some(known) = self.plain.get(dice.below(self.plain.len())) {
            let spot = self.list.locate(name(known.site, known.off)).unwrap();
            assert_eq!(self.list.split(spot).unwrap().within, 0);
        }
    }

    // All that is shown, and where ten of the characters stand.
    fn agree(&mut self, dice: &mut Dice) {
        let shown = self.plain.iter().filter(|it| !it.hidden);
        let walked = self.list.walk().flat_map(|run| {
            let names = run.off..run.off + run.len;
            names.map(move |off| (run.site.get(), off))
        });
        assert!(
            walked.eq(shown.map(|it| (it.site, it.off))),
            "what is shown"
        );
        for _ in 0..10 {
            let index = dice.below(self.plain.len());
            let known = self.plain[index];
            let before = self.plain[..index].iter().filter(|it| !it.hidden).count() as u64;
            let name = name(known.site, known.off);
            assert_eq!(
                self.list.shown_to(name),
                Some(before + u64::from(!known.hidden))
            );
            if !known.hidden {
                assert_eq!(self.list.shown_at(before).0, name);
                assert_eq!(Some(self.list.locate_pos(before)), self.list.locate(name));
            }
        }
    }
}

#[test]
fn a_list_tells_what_a_plain_one_tells() {
    let mut dice = Dice(1);
    let mut both = Both {
        list: PieceList::new(Global).unwrap(),
        plain: Vec::new(),
    };
    for edit in 1..=100_000 {
        match dice.below(10) {
            0..4 => both.types(&mut dice),
            4..8 if both.plain.is_empty() => {}
            kind @ 4..8 => both.switches(&mut dice, kind < 6, 2 * STAMPS + edit),
            _ => both.splits(&mut dice),
        }
        if edit % 1_000 == 0 {
            both.agree(&mut dice);
        }
    }
}
