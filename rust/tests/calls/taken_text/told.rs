//! Operations by their fields, and texts of them.

use char_files::{Anchor, Name, SiteNo, TextNo};
use fallible::{Fail, Global, Vec};
use looks::{Colour, Looks, Sel};
use operations::{Kind, NameSet, Op};
use taken_text::TakenText;
use waiting_room::{GoodLog, Verdict, judge};

// A name by its site and its offset.
pub(super) type Parts = (u16, u32);

// What an operation does. An Insert has default looks.
#[derive(Clone, Copy)]
pub(super) enum Does {
    // The cause, if it isn't the root; the length of its site's file before it; the bytes.
    Insert(Option<Parts>, u32, &'static [u8]),
    // The name that it hides.
    Delete(Parts),
    // The name that it shows again.
    Restore(Parts),
    // The colour, and the name that gets it.
    ChangeColour(u8, Parts),
}

// An operation on text 1: its site, its seq, its stamp, what it does.
pub(super) type Told = (u16, u32, u64, Does);

// Site 1 types `AC`; then both sites type after the `A`, and site 2 goes on under the same stamp: `AXBC`.
// The `B` is deleted; the `X` is deleted and shown again; the `C` gets colour 3.
pub(super) const TOLD: &[Told] = &[
    (1, 1, 1, Does::Insert(None, 0, b"AC")),
    (1, 2, 2, Does::Insert(Some((1, 0)), 2, b"B")),
    (2, 1, 2, Does::Insert(Some((1, 0)), 0, b"X")),
    (1, 3, 3, Does::Delete((1, 2))),
    (2, 2, 3, Does::Delete((2, 0))),
    (1, 4, 4, Does::Restore((2, 0))),
    (2, 3, 4, Does::ChangeColour(3, (1, 1))),
];

pub(super) fn site(number: u16) -> Result<SiteNo, Fail> {
    Ok(SiteNo::new(number).ok_or("a site")?)
}

pub(super) fn name((number, off): Parts) -> Result<Name, Fail> {
    Ok(Name::new(site(number)?, off).ok_or("a name")?)
}

pub(super) fn anchor(cause: Option<Parts>) -> Result<Anchor, Fail> {
    Ok(match cause {
        None => Anchor::Root,
        Some(parts) => Anchor::At(name(parts)?),
    })
}

fn set_of(alloc: Global, parts: Parts) -> Result<NameSet, Fail> {
    let mut set = NameSet::new(alloc);
    set.insert(name(parts)?)?;
    Ok(set)
}

fn kind_of(alloc: Global, does: Does) -> Result<Kind, Fail> {
    Ok(match does {
        Does::Insert(cause, at, bytes) => Kind::Insert {
            cause: anchor(cause)?,
            at,
            looks: Looks::plain(),
            bytes: Vec::from_slice(alloc, bytes)?,
        },
        Does::Delete(parts) => Kind::Delete {
            names: set_of(alloc, parts)?,
        },
        Does::Restore(parts) => Kind::Restore {
            names: set_of(alloc, parts)?,
        },
        Does::ChangeColour(number, parts) => Kind::ChangeLooks {
            sel: Sel::new(2).ok_or("colour")?,
            looks: Looks {
                colour: Colour::new(number).ok_or("a colour")?,
                ..Looks::plain()
            },
            names: set_of(alloc, parts)?,
        },
    })
}

fn op_of(alloc: Global, (number, seq, stamp, does): Told) -> Result<Op, Fail> {
    let text = TextNo::new(1).ok_or("a text")?;
    let site = site(number)?;
    let kind = kind_of(alloc, does)?;
    Ok(Op::new(text, site, seq, stamp, kind).ok_or("an operation")?)
}

// Whether the text may take the operation in.
pub(super) fn is_ready(text: &TakenText, op: &Op) -> bool {
    let log = text.log();
    if log.holds(op.site(), op.seq()) {
        return false;
    }
    match judge(op, &GoodLog::new(log)) {
        Verdict::Ready => true,
        Verdict::Wait | Verdict::Misfit | Verdict::LowStamp => false,
    }
}

// Takes the operation in, if it is ready.
pub(super) fn take_op(text: &mut TakenText, op: Op) -> Result<(), Fail> {
    if !is_ready(text, &op) {
        return Err("not ready".into());
    }
    text.add(op)?;
    Ok(())
}

pub(super) fn take(text: &mut TakenText, alloc: Global, told: Told) -> Result<(), Fail> {
    let op = op_of(alloc, told)?;
    take_op(text, op)
}

// Takes the operations in, in this order.
pub(super) fn take_all(text: &mut TakenText, alloc: Global, told: &[Told]) -> Result<(), Fail> {
    for fields in told {
        take(text, alloc, *fields)?;
    }
    Ok(())
}
