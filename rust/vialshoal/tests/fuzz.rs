//! Calls with arbitrary arguments. None panics; what is refused changes nothing; and sites that were handed all messages, in
//! any order and any number of times, show the same. VIALSHOAL_SEEDS says how many seeds are tried.

mod support;

use support::{Draw, shown};
use vialshoal::{Colour, Error, FontName, Form, Front, LooksChange, Name, NameRange, Text};

const SEEDS: u64 = 24;
const STEPS: u32 = 400;
const SITES: usize = 3;

struct Run {
    draw: Draw,
    // Sites that are handed what the others made, and nothing else.
    sites: Vec<Text>,
    // What each site hasn't been handed yet, in any order.
    due: Vec<Vec<Vec<u8>>>,
    // A site that is handed anything.
    victim: Text,
    messages: Vec<Vec<u8>>,
}

impl Run {
    fn new(seed: u64) -> Result<Run, Error> {
        let sites: Result<_, _> = (1..=SITES as u16).map(|site| Text::new(1, site)).collect();
        Ok(Run {
            draw: Draw::new(seed),
            sites: sites?,
            due: vec![Vec::new(); SITES],
            victim: Text::new(1, 9)?,
            messages: Vec::new(),
        })
    }

    // A position or another number: mostly near the text.
    fn number(&mut self, len: u64) -> u64 {
        match self.draw.below(12) {
            0 => self.draw.next(),
            1 => len.wrapping_add(self.draw.below(3)),
            _ => self.draw.below(len + 1),
        }
    }

    fn fronts(&mut self) -> Vec<Front> {
        let count = self.draw.below(5);
        let draw = &mut self.draw;
        (0..count)
            .map(|_| Front {
                site: draw.below(5) as u16,
                seq: draw.small() as u32,
            })
            .collect()
    }

    fn names(&mut self, len: u64) -> Vec<NameRange> {
        let count = self.draw.below(4);
        let mut found = Vec::new();
        for _ in 0..count {
            let (site, offset) = (self.draw.below(5) as u16, self.number(len) as u32);
            found.push(NameRange {
                site,
                offset,
                len: self.draw.small() as u32,
            });
        }
        found
    }

    fn change(&mut self) -> LooksChange {
        LooksChange {
            font: FontName::new([&b"Syntax10.Scn.Fnt"[..], b"A", b""][self.draw.below(3) as usize]),
            colour: Colour::new(self.draw.below(20) as u8),
            offset: (self.draw.below(2) == 0).then(|| self.draw.next() as i8),
        }
    }

    // An edit of a text, with what it is to show after it where that is plain.
    fn edit(&mut self, which: Option<usize>) -> Option<Vec<u8>> {
        let len = which.map_or(self.victim.len(), |site| self.sites[site].len());
        let (beg, end) = (self.number(len), self.number(len));
        let (bytes, names, change) = (self.draw.bytes(6), self.names(len), self.change());
        let kind = self.draw.below(8);
        let text = match which {
            Some(site) => &mut self.sites[site],
            None => &mut self.victim,
        };
        let mut model = shown(text);
        let before = model.clone();
        let answer = match kind {
            0 | 1 => text.insert(beg, &bytes),
            2 => text.delete(beg..end),
            3 => text.change_looks(beg..end, &change),
            4 => text.restore(),
            5 => text.recall(beg),
            6 => text.delete_names(&names),
            _ => text.restore_names(&names),
        };
        let messages = match answer {
            Ok(messages) => messages,
            Err(error) => {
                assert_eq!(shown(text), before, "{error} changed the text");
                return None;
            }
        };
        match kind {
            0 | 1 => drop(model.splice(beg as usize..beg as usize, bytes)),
            2 => drop(model.drain(beg as usize..end as usize)),
            _ => model = shown(text),
        }
        assert_eq!(shown(text), model);
        if let Some(site) = which {
            for message in &messages {
                self.messages.push(message.to_vec());
                for (other, due) in self
                    .due
                    .iter_mut()
                    .enumerate()
                    .filter(|(other, _)| *other != site)
                {
                    let copies = 1 + usize::from(other == 0);
                    due.extend(std::iter::repeat_n(message.to_vec(), copies));
                }
            }
        }
        Some(model)
    }

    // Hands a site some of what it hasn't been handed.
    fn hand(&mut self, site: usize) -> Result<(), Error> {
        for _ in 0..self.draw.below(6) {
            let count = self.due[site].len() as u64;
            if count == 0 {
                break;
            }
            let at = self.draw.below(count) as usize;
            let message = self.due[site].swap_remove(at);
            match self.sites[site].take(&message) {
                // As many wait as may wait: it comes again.
                Err(Error::Refused(vialshoal::Refusal::RoomFull)) => self.due[site].push(message),
                answer => drop(answer?),
            }
        }
        Ok(())
    }

    // Asks a text anything.
    fn ask(&mut self, site: usize) -> Result<(), Error> {
        let len = self.sites[site].len();
        let (beg, end) = (self.number(len), self.number(len));
        let (fronts, name) = (
            self.fronts(),
            Name {
                site: self.draw.below(5) as u16,
                offset: self.draw.small() as u32,
            },
        );
        let text = &mut self.sites[site];
        let whole = shown(text);
        assert_eq!(whole.len() as u64, text.len());
        match text.bytes(beg..end) {
            Ok(bytes) => assert!(bytes.eq(whole[beg as usize..end as usize].iter().copied())),
            Err(error) => assert_eq!((error, beg <= end && end <= len), (Error::OutOfText, false)),
        }
        if let Ok(place) = text.find(name) {
            let at = text.view().names(0..len)?.position(|each| each == name);
            assert_eq!(at.is_some(), place.is_shown);
            assert!(at.is_none_or(|at| at as u64 + 1 == place.pos));
        }
        let _ = (
            text.view().character(beg),
            text.view().front(name.site),
            text.changes().count(),
            text.view().save(),
        );
        for form in [Form::Messages, Form::Packed] {
            assert_eq!(shown(&Text::load(&text.store(form)?)?), whole);
        }
        let _ = (
            text.past(&fronts).map(|past| past.view().len()),
            text.since(&fronts).map(Iterator::count),
        );
        let past = text.past(&text.fronts()?)?;
        assert!(past.view().bytes(0..len)?.eq(whole));
        Ok(())
    }

    // Hands the victim bytes of which some are changed.
    fn harm(&mut self, site: usize) -> Result<(), Error> {
        let fronts = self.fronts();
        let mut given: Vec<Vec<u8>> = vec![self.draw.bytes(40)];
        given.extend(self.messages.last().cloned());
        if let Ok(chunks) = self.sites[site].pack(&fronts) {
            given.extend(chunks.iter().map(<[u8]>::to_vec));
        }
        given.push(self.sites[site].store(Form::Messages)?);
        given.push(self.sites[site].store(Form::Packed)?);
        for mut bytes in given {
            self.draw.change(&mut bytes);
            let _ = (
                self.victim.take(&bytes),
                self.victim.unpack(&bytes),
                Text::load(&bytes),
            );
            let len = self.victim.len();
            assert_eq!(shown(&self.victim).len() as u64, len);
        }
        let _ = (
            self.victim.settle(),
            self.draw.below(9) == 0 && self.victim.forget_waiting() > 64,
        );
        Ok(())
    }

    fn step(&mut self) -> Result<(), Error> {
        let site = self.draw.below(SITES as u64) as usize;
        match self.draw.below(10) {
            0..=3 => drop(self.edit(Some(site))),
            4 => drop(self.edit(None)),
            5 | 6 => self.hand(site)?,
            7 => self.ask(site)?,
            _ => self.harm(site)?,
        }
        Ok(())
    }

    // Hands each site all that it lacks.
    fn meet(&mut self) -> Result<(), Error> {
        for site in 0..SITES {
            self.sites[site].forget_waiting();
            for giver in (0..SITES).filter(|giver| *giver != site) {
                let fronts = self.sites[site].fronts()?;
                if self.draw.below(2) == 0 {
                    for chunk in &self.sites[giver].pack(&fronts)? {
                        self.sites[site].unpack(chunk).map_err(|error| error.why)?;
                    }
                }
                if self.draw.below(4) == 0 {
                    let copy = Text::load(&self.sites[giver].store(Form::Packed)?)?;
                    self.sites[site].merge(&copy).map_err(|error| error.why)?;
                    self.sites[site].settle();
                }
                let lacked: Result<Vec<_>, _> = self.sites[giver].since(&fronts)?.collect();
                for message in lacked? {
                    self.sites[site].take(&message)?;
                }
            }
        }
        Ok(())
    }
}

#[test]
fn arbitrary_calls_answer_and_sites_meet() -> Result<(), Error> {
    let seeds = std::env::var("VIALSHOAL_SEEDS")
        .ok()
        .and_then(|word| word.parse().ok())
        .unwrap_or(SEEDS);
    for seed in 1..=seeds {
        let mut run = Run::new(seed)?;
        for _ in 0..STEPS {
            run.step()?;
        }
        run.meet()?;
        run.meet()?;
        let texts: Vec<_> = run.sites.iter().map(shown).collect();
        assert!(
            texts.iter().all(|text| *text == texts[0]),
            "seed {seed}: {texts:?}"
        );
    }
    Ok(())
}
