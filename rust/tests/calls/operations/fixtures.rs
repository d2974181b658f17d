//! Operations by their fields.
use char_files::{Anchor, Name, SiteNo, TextNo};
use fallible::{AllocError, Global, Vec};
use looks::{Colour, FontName, Looks, Sel};
use operations::{Kind, NameSet, Op};

/// Ranges of names as (site, at, len).
pub type Ranges = &'static [(u16, u32, u32)];

/// Looks as the font's name, the colour and the offset.
pub type LooksParts = (&'static [u8], u8, i8);

pub const PLAIN: LooksParts = (b"Oberon10.Scn.Fnt", 1, 0);

/// The change that an operation makes. An Insert has default looks.
#[derive(Clone, Copy)]
pub enum Does {
    /// The cause, or none for the root; the length of its site's file before it; the bytes.
    Insert(Option<(u16, u32)>, u32, &'static [u8]),
    Delete(Ranges),
    Restore(Ranges),
    /// The selection: 1 for the font, 2 for the colour, 4 for the offset, or their sum.
    ChangeLooks(u8, LooksParts, Ranges),
}

/// The fields of an operation on text 1.
#[derive(Clone, Copy)]
pub struct Fields {
    pub site: u16,
    pub seq: u32,
    pub stamp: u64,
    pub does: Does,
}

/// An operation on text 1: its site, its seq, its stamp and its change.
pub type Told = (u16, u32, u64, Does);

pub fn name((site, off): (u16, u32)) -> Option<Name> {
    Name::new(SiteNo::new(site)?, off)
}

pub fn anchor(cause: Option<(u16, u32)>) -> Option<Anchor> {
    match cause {
        None => Some(Anchor::Root),
        Some(parts) => Some(Anchor::At(name(parts)?)),
    }
}

pub fn vec_of(alloc: Global, bytes: &[u8]) -> Result<Vec<u8>, AllocError> {
    Vec::from_slice(alloc, bytes)
}

pub fn looks_of((font, colour, offset): LooksParts) -> Option<Looks> {
    Some(Looks {
        font: FontName::new(font)?,
        colour: Colour::new(colour)?,
        offset,
    })
}

pub fn set_of(alloc: Global, ranges: Ranges) -> Option<NameSet> {
    let mut set = NameSet::new(alloc);
    for (site, at, len) in ranges {
        for off in *at..*at + *len {
            set.insert(name((*site, off))?).ok()?;
        }
    }
    Some(set)
}

fn kind_of(alloc: Global, does: Does) -> Option<Kind> {
    Some(match does {
        Does::Insert(cause, at, bytes) => Kind::Insert {
            cause: anchor(cause)?,
            at,
            bytes: vec_of(alloc, bytes).ok()?,
            looks: Looks::plain(),
        },
        Does::Delete(ranges) => Kind::Delete {
            names: set_of(alloc, ranges)?,
        },
        Does::Restore(ranges) => Kind::Restore {
            names: set_of(alloc, ranges)?,
        },
        Does::ChangeLooks(bits, looks, ranges) => Kind::ChangeLooks {
            sel: Sel::new(bits)?,
            looks: looks_of(looks)?,
            names: set_of(alloc, ranges)?,
        },
    })
}

/// The operation, or none if these fields have no spelling.
pub fn op_with(alloc: Global, fields: Fields) -> Option<Op> {
    let text = TextNo::new(1)?;
    let site = SiteNo::new(fields.site)?;
    let kind = kind_of(alloc, fields.does)?;
    Op::new(text, site, fields.seq, fields.stamp, kind)
}

pub fn op_of((site, seq, stamp, does): Told) -> Op {
    let fields = Fields {
        site,
        seq,
        stamp,
        does,
    };
    op_with(Global, fields).expect("an operation")
}

/// All of these operations, in this order.
pub fn ops_of(told: &[Told]) -> Vec<Op> {
    let mut ops = Vec::new(Global);
    for fields in told {
        ops.push(op_of(*fields)).ok().expect("memory");
    }
    ops
}

pub fn are_looks(looks: &Looks, (font, colour, offset): LooksParts) -> bool {
    looks.font.as_bytes() == font && looks.colour.number() == colour && looks.offset == offset
}

pub fn are_ranges(set: &NameSet, ranges: &[(u16, u32, u32)]) -> bool {
    let found = set.ranges().iter();
    found
        .map(|range| (range.site().get(), range.at(), range.len()))
        .eq(ranges.iter().copied())
}

fn does_this(kind: &Kind, does: Does) -> bool {
    match (kind, does) {
        (
            Kind::Insert {
                cause,
                at,
                looks,
                bytes,
            },
            Does::Insert(other, other_at, others),
        ) => {
            (Some(*cause), *at) == (anchor(other), other_at)
                && are_looks(looks, PLAIN)
                && bytes.as_slice() == others
        }
        (Kind::Delete { names }, Does::Delete(ranges))
        | (Kind::Restore { names }, Does::Restore(ranges)) => are_ranges(names, ranges),
        (Kind::ChangeLooks { sel, looks, names }, Does::ChangeLooks(bits, parts, ranges)) => {
            sel.bits() == bits && are_looks(looks, parts) && are_ranges(names, ranges)
        }
        _ => false,
    }
}

/// Whether the operation's readers give these fields.
pub fn has_these(op: &Op, fields: Fields) -> bool {
    op.text().get() == 1
        && op.site().get() == fields.site
        && op.seq() == fields.seq
        && op.stamp() == fields.stamp
        && does_this(op.kind(), fields.does)
}
