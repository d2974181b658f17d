//! Each call once as it is meant, and once for each error that it has of its own.

use vialshoal::{
    Change, ChangeKind, Colour, Error, FontName, Form, Front, LooksChange, Name, NameRange, Place,
    Refusal, Replacement, Text, Took,
};

type Outcome = Result<(), Box<dyn std::error::Error>>;

fn pair() -> Result<(Text, Text), Error> {
    Ok((Text::new(1, 1)?, Text::new(1, 2)?))
}

fn shown(text: &Text) -> Vec<u8> {
    text.bytes(0..text.len())
        .map(Iterator::collect)
        .unwrap_or_default()
}

#[test]
fn what_is_typed_apart_meets() -> Outcome {
    let (mut a, mut b) = pair()?;
    for message in &a.insert(0, b"AC")? {
        assert_eq!(
            b.take(message)?,
            Took::Taken {
                drained: 0,
                dropped: 0,
                stopped: false
            }
        );
        assert_eq!(b.take(message)?, Took::Repeat);
    }
    let (from_a, from_b) = (a.insert(1, b"B")?, b.insert(1, b"XY")?);
    assert_eq!(
        (from_a.len(), from_b.len(), from_a.is_empty()),
        (1, 1, false)
    );
    for message in from_b.iter() {
        a.take(message)?;
    }
    b.take(from_a.get(0).ok_or(Error::NoName)?)?;
    assert_eq!(from_a.get(1), None);
    assert_eq!(
        (shown(&a), shown(&b)),
        (b"AXYBC".to_vec(), b"AXYBC".to_vec())
    );
    assert_eq!(
        a.fronts()?,
        [Front { site: 1, seq: 2 }, Front { site: 2, seq: 1 }]
    );
    assert_eq!(
        (a.view().front(2)?, a.view().text(), b.view().site()),
        (1, 1, 2)
    );
    Ok(())
}

#[test]
fn what_comes_before_its_causes_waits() -> Outcome {
    let (mut a, mut b) = pair()?;
    let (first, second) = (a.insert(0, b"A")?, a.insert(1, b"B")?);
    for message in &second {
        assert_eq!(b.take(message)?, Took::Waits);
    }
    assert_eq!(
        (b.waiting(), b.is_empty(), b.settle().drained),
        (1, true, 0)
    );
    for message in &first {
        assert_eq!(
            b.take(message)?,
            Took::Taken {
                drained: 1,
                dropped: 0,
                stopped: false
            }
        );
    }
    assert_eq!((shown(&b), b.forget_waiting()), (b"AB".to_vec(), 0));
    Ok(())
}

#[test]
fn ranges_are_cut_restored_recalled_and_dressed() -> Outcome {
    let mut a = Text::new(1, 1)?;
    a.insert(0, b"Oberon")?;
    a.delete(1..3)?;
    assert_eq!(shown(&a), b"Oron");
    a.recall(4)?;
    a.restore()?;
    assert_eq!(shown(&a), b"Oberonbe");
    let red = LooksChange {
        colour: Colour::new(3),
        ..LooksChange::default()
    };
    a.change_looks(2..4, &red)?;
    let looks: Vec<_> = a
        .view()
        .characters(0..8)?
        .map(|char| char.looks.colour.number())
        .collect();
    assert_eq!(looks, [1, 1, 3, 3, 1, 1, 1, 1]);
    let (byte, mut looks) = a.view().character(3)?;
    looks.font = FontName::new(b"Syntax10.Scn.Fnt").ok_or(Error::NoName)?;
    a.insert_in_looks(8, &[byte], &looks)?;
    assert_eq!(a.view().character(8)?, (b'r', looks));
    assert!(a.view().save()?.ends_with(b"Oberonber"));
    Ok(())
}

#[test]
fn characters_are_found_by_their_names() -> Outcome {
    let (mut a, mut b) = pair()?;
    for message in &a.insert(0, b"abc")? {
        b.take(message)?;
    }
    b.insert(0, b"__")?;
    let names: Vec<_> = b.view().names(2..5)?.collect();
    assert_eq!(names[2], Name { site: 1, offset: 2 });
    assert_eq!(
        b.find(names[2])?,
        Place {
            pos: 5,
            is_shown: true
        }
    );
    b.delete_names(&[names[1].into()])?;
    assert_eq!(
        (shown(&b), b.find(names[1])?),
        (
            b"__ac".to_vec(),
            Place {
                pos: 3,
                is_shown: false
            }
        )
    );
    b.restore_names(&[NameRange {
        site: 1,
        offset: 0,
        len: 3,
    }])?;
    assert_eq!(shown(&b), b"__abc");
    let changes: Vec<Change> = b.changes().collect();
    assert_eq!(
        changes.first(),
        Some(&Change {
            kind: ChangeKind::Insert,
            beg: 0,
            end: 3
        })
    );
    assert_eq!((changes.len(), b.changes().len()), (4, 0));
    Ok(())
}

#[test]
fn where_noting_has_ended_what_was_reported_gives_way_to_what_is_shown() -> Outcome {
    let (mut a, mut b) = pair()?;
    a.insert(0, b"Oberon")?;
    assert_eq!(a.replacement(), None);
    a.end_noting(0);
    for deleted in [0, 6] {
        let inserted = 6;
        assert_eq!(a.changes().len(), 0);
        assert_eq!(a.replacement(), Some(Replacement { deleted, inserted }));
    }
    b.insert(0, b"abc")?;
    a.merge(&b)?;
    a.delete(0..1)?;
    assert_eq!(a.changes().len(), 0);
    assert_eq!(
        a.replacement(),
        Some(Replacement {
            deleted: 6,
            inserted: 8
        })
    );
    a.end_noting(3);
    assert_eq!(
        a.replacement(),
        Some(Replacement {
            deleted: 3,
            inserted: 8
        })
    );
    Ok(())
}

#[test]
fn what_was_missed_comes_by_messages_chunks_a_merge_and_files() -> Outcome {
    let (mut a, mut b) = pair()?;
    a.insert(0, b"Oberon")?;
    let then = a.fronts()?;
    a.delete(0..2)?;
    for message in a.since(&b.fronts()?)? {
        b.take(&message?)?;
    }
    let mut c = Text::new(1, 3)?;
    let chunks = a.pack(&[])?;
    for chunk in &chunks {
        assert_eq!(c.unpack(chunk)?.taken, 2);
    }
    let mut d = Text::new(1, 4)?;
    assert_eq!(
        (
            chunks.len(),
            chunks.is_empty(),
            chunks.iter().len(),
            d.merge(&a)?
        ),
        (1, false, 1, 2)
    );
    for form in [Form::Messages, Form::Packed] {
        assert_eq!(shown(&Text::load(&a.store(form)?)?), b"eron");
    }
    for text in [&b, &c, &d] {
        assert_eq!(shown(text), b"eron");
    }
    let past = a.past(&then)?;
    assert!(past.view().bytes(0..6)?.eq(*b"Oberon"));
    Ok(())
}

#[test]
fn what_is_out_of_range_is_an_error() -> Outcome {
    assert_eq!(Text::new(0, 1).err(), Some(Error::NoNumber));
    assert_eq!(Text::new(1, 0).err(), Some(Error::NoNumber));
    let mut a = Text::new(1, 1)?;
    a.insert(0, b"abc")?;
    let far = u64::MAX;
    assert_eq!(
        a.insert(4, b"d").map_err(|error| error.why).err(),
        Some(Error::OutOfText)
    );
    assert_eq!(
        a.recall(far).map_err(|error| error.why).err(),
        Some(Error::OutOfText)
    );
    #[expect(clippy::reversed_empty_ranges, reason = "that is what is refused")]
    let rising = a.delete(2..1);
    assert_eq!(
        rising.map_err(|error| error.why).err(),
        Some(Error::OutOfText)
    );
    assert_eq!(a.bytes(0..far).err(), Some(Error::OutOfText));
    assert_eq!(a.view().character(3).err(), Some(Error::OutOfText));
    assert_eq!(
        a.find(Name { site: 0, offset: 0 }).err(),
        Some(Error::NoNumber)
    );
    assert_eq!(
        a.find(Name {
            site: 1,
            offset: 1 << 24
        })
        .err(),
        Some(Error::NoNumber)
    );
    assert_eq!(
        a.find(Name { site: 1, offset: 3 }).err(),
        Some(Error::NoName)
    );
    assert_eq!(a.view().front(0).err(), Some(Error::NoNumber));
    assert_eq!(
        a.pack(&[Front { site: 0, seq: 1 }]).err(),
        Some(Error::NoNumber)
    );
    let names = |offset, len| NameRange {
        site: 1,
        offset,
        len,
    };
    for (range, why) in [
        (names(0, 4), Error::NoName),
        (names(0, 0), Error::NoNumber),
        (names(u32::MAX, u32::MAX), Error::NoNumber),
    ] {
        assert_eq!(
            a.delete_names(&[range]).map_err(|error| error.why).err(),
            Some(why)
        );
    }
    let nothing = LooksChange::default();
    assert_eq!(
        a.change_looks(0..1, &nothing)
            .map_err(|error| error.why)
            .err(),
        Some(Error::NothingSelected)
    );
    Ok(())
}

#[test]
fn what_a_text_refuses_is_an_error() -> Outcome {
    let (mut a, mut other) = (Text::new(1, 1)?, Text::new(2, 2)?);
    let refused = |why| Some(Error::Refused(why));
    assert_eq!(a.take(b"no message").err(), refused(Refusal::Malformed));
    for message in &other.insert(0, b"x")? {
        assert_eq!(a.take(message).err(), refused(Refusal::WrongText));
    }
    assert_eq!(
        a.merge(&other)
            .map_err(|error| (error.done, error.why))
            .err(),
        Some((0, Error::Refused(Refusal::WrongText)))
    );
    assert_eq!(a.unpack(b"").map_err(|error| error.done).err(), Some(0));
    assert_eq!(Text::load(b"OTS1").err(), refused(Refusal::BadFile));
    assert_eq!(
        Error::Refused(Refusal::BadFile).to_string(),
        "the bytes are no file of a text"
    );
    let long = vec![b'x'; (1 << 24) + 1];
    assert_eq!(
        a.insert(0, &long).map_err(|error| error.why).err(),
        Some(Error::TooLong)
    );
    a.insert(0, b"abc")?;
    let spent = a
        .insert(3, &long[..(1 << 24) - 1])
        .err()
        .ok_or(Error::NoName)?;
    assert_eq!(
        (spent.sent.len(), spent.why),
        ((1 << 12) - 1, Error::Refused(Refusal::FileSpent))
    );
    assert_eq!(a.len(), 3 + ((1 << 24) - (1 << 12)));
    Ok(())
}
