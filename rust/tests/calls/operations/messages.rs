//! Operations and the messages that the format's description spells them as.
use super::fixtures::{Does, Fields};

pub(super) struct Message {
    pub(super) what: &'static str,
    pub(super) fields: Fields,
    pub(super) bytes: &'static [u8],
}

pub(super) const FIRST: &[u8] =
    b"OT\x01\x01\x00\x01\x00\x01\x00\x00\x00\x01\x00\x00\x00\x00\x00\x00\x00\x01\
    \x00\x00\x00\x00\x00\x00\x00\x00\x00\x00\x10Oberon10.Scn.Fnt\x01\x00\x00\x06Oberon";

pub(super) const SECOND: &[u8] =
    b"OT\x01\x01\x00\x01\x00\x02\x00\x00\x00\x02\x00\x00\x00\x00\x00\x00\x00\x02\
    \x00\x02\x00\x00\x00\x00\x00\x00\x00\x01\x10Oberon10.Scn.Fnt\x01\x00\x00\x01Y";

pub(super) const DELETE: &[u8] =
    b"OT\x01\x02\x00\x01\x00\x02\x00\x00\x00\x01\x00\x00\x00\x00\x00\x00\x00\x02\
    \x00\x01\x00\x01\x00\x00\x00\x00\x00\x00\x00\x01";

pub(super) const CHANGE: &[u8] =
    b"OT\x01\x03\x00\x01\x00\x01\x00\x00\x00\x02\x00\x00\x00\x00\x00\x00\x00\x02\
    \x02\x07\x00\x01\x00\x01\x00\x00\x00\x00\x00\x00\x00\x01";

pub(super) const RESTORE: &[u8] =
    b"OT\x02\x04\x00\x01\x00\x01\x00\x00\x00\x03\x00\x00\x00\x00\x00\x00\x00\x03\
    \x00\x01\x00\x01\x00\x00\x00\x01\x00\x00\x00\x01";

pub(super) const MESSAGES: &[Message] = &[
    Message {
        what: "the first Insert of a text",
        fields: Fields {
            site: 1,
            seq: 1,
            stamp: 1,
            does: Does::Insert(None, 0, b"Oberon"),
        },
        bytes: FIRST,
    },
    Message {
        what: "the first Insert of a text, with another last letter",
        fields: Fields {
            site: 1,
            seq: 1,
            stamp: 1,
            does: Does::Insert(None, 0, b"Oberoo"),
        },
        bytes: b"OT\x01\x01\x00\x01\x00\x01\x00\x00\x00\x01\x00\x00\x00\x00\x00\x00\x00\x01\
            \x00\x00\x00\x00\x00\x00\x00\x00\x00\x00\x10Oberon10.Scn.Fnt\x01\x00\x00\x06Oberoo",
    },
    Message {
        what: "an Insert below another site's character, of the same stamp",
        fields: Fields {
            site: 2,
            seq: 1,
            stamp: 1,
            does: Does::Insert(Some((1, 0)), 0, b"X"),
        },
        bytes: b"OT\x01\x01\x00\x01\x00\x02\x00\x00\x00\x01\x00\x00\x00\x00\x00\x00\x00\x01\
            \x00\x01\x00\x00\x00\x00\x00\x00\x00\x00\x10Oberon10.Scn.Fnt\x01\x00\x00\x01X",
    },
    Message {
        what: "a second Insert of a site",
        fields: Fields {
            site: 2,
            seq: 2,
            stamp: 2,
            does: Does::Insert(Some((2, 0)), 1, b"Y"),
        },
        bytes: SECOND,
    },
    Message {
        what: "a Delete of one character",
        fields: Fields {
            site: 2,
            seq: 1,
            stamp: 2,
            does: Does::Delete(&[(1, 0, 1)]),
        },
        bytes: DELETE,
    },
    Message {
        what: "a Restore of one character",
        fields: Fields {
            site: 1,
            seq: 3,
            stamp: 3,
            does: Does::Restore(&[(1, 1, 1)]),
        },
        bytes: RESTORE,
    },
    Message {
        what: "a change of one character's colour",
        fields: Fields {
            site: 1,
            seq: 2,
            stamp: 2,
            does: Does::ChangeLooks(2, (b"Oberon10.Scn.Fnt", 7, 0), &[(1, 0, 1)]),
        },
        bytes: CHANGE,
    },
    Message {
        what: "the greatest stamp",
        fields: Fields {
            site: 2,
            seq: 1,
            stamp: 0xffffffffffff,
            does: Does::Insert(None, 0, b"Z"),
        },
        bytes: b"OT\x01\x01\x00\x01\x00\x02\x00\x00\x00\x01\x00\x00\xff\xff\xff\xff\xff\xff\
            \x00\x00\x00\x00\x00\x00\x00\x00\x00\x00\x10Oberon10.Scn.Fnt\x01\x00\x00\x01Z",
    },
    Message {
        what: "the greatest stamp but one",
        fields: Fields {
            site: 2,
            seq: 1,
            stamp: 0xfffffffffffe,
            does: Does::Insert(None, 0, b"Z"),
        },
        bytes: b"OT\x01\x01\x00\x01\x00\x02\x00\x00\x00\x01\x00\x00\xff\xff\xff\xff\xff\xfe\
            \x00\x00\x00\x00\x00\x00\x00\x00\x00\x00\x10Oberon10.Scn.Fnt\x01\x00\x00\x01Z",
    },
    Message {
        what: "a third Insert of a site",
        fields: Fields {
            site: 1,
            seq: 3,
            stamp: 3,
            does: Does::Insert(Some((1, 3)), 4, b"bc"),
        },
        bytes: b"OT\x01\x01\x00\x01\x00\x01\x00\x00\x00\x03\x00\x00\x00\x00\x00\x00\x00\x03\
            \x00\x01\x00\x00\x00\x03\x00\x00\x00\x04\x10Oberon10.Scn.Fnt\x01\x00\x00\x02bc",
    },
    Message {
        what: "two bytes",
        fields: Fields {
            site: 1,
            seq: 1,
            stamp: 1,
            does: Does::Insert(None, 0, b"AC"),
        },
        bytes: b"OT\x01\x01\x00\x01\x00\x01\x00\x00\x00\x01\x00\x00\x00\x00\x00\x00\x00\x01\
            \x00\x00\x00\x00\x00\x00\x00\x00\x00\x00\x10Oberon10.Scn.Fnt\x01\x00\x00\x02AC",
    },
    Message {
        what: "an Insert below the site's own character",
        fields: Fields {
            site: 1,
            seq: 2,
            stamp: 2,
            does: Does::Insert(Some((1, 0)), 2, b"B"),
        },
        bytes: b"OT\x01\x01\x00\x01\x00\x01\x00\x00\x00\x02\x00\x00\x00\x00\x00\x00\x00\x02\
            \x00\x01\x00\x00\x00\x00\x00\x00\x00\x02\x10Oberon10.Scn.Fnt\x01\x00\x00\x01B",
    },
    Message {
        what: "an Insert below another site's character",
        fields: Fields {
            site: 2,
            seq: 1,
            stamp: 2,
            does: Does::Insert(Some((1, 0)), 0, b"X"),
        },
        bytes: b"OT\x01\x01\x00\x01\x00\x02\x00\x00\x00\x01\x00\x00\x00\x00\x00\x00\x00\x02\
            \x00\x01\x00\x00\x00\x00\x00\x00\x00\x00\x10Oberon10.Scn.Fnt\x01\x00\x00\x01X",
    },
    Message {
        what: "a change of all attributes of two ranges",
        fields: Fields {
            site: 3,
            seq: 5,
            stamp: 9,
            does: Does::ChangeLooks(7, (b"Syntax12.Scn.Fnt", 15, -3), &[(1, 3, 2), (2, 0, 1)]),
        },
        bytes: b"OT\x01\x03\x00\x01\x00\x03\x00\x00\x00\x05\x00\x00\x00\x00\x00\x00\x00\x09\
            \x07\x10Syntax12.Scn.Fnt\x0f\xfd\
            \x00\x02\x00\x01\x00\x00\x00\x03\x00\x00\x00\x02\x00\x02\x00\x00\x00\x00\x00\x00\x00\x01",
    },
    Message {
        what: "a change of the font",
        fields: Fields {
            site: 1,
            seq: 2,
            stamp: 2,
            does: Does::ChangeLooks(1, (b"A", 1, 0), &[(1, 258, 1)]),
        },
        bytes: b"OT\x01\x03\x00\x01\x00\x01\x00\x00\x00\x02\x00\x00\x00\x00\x00\x00\x00\x02\
            \x01\x01A\x00\x01\x00\x01\x00\x00\x01\x02\x00\x00\x00\x01",
    },
    Message {
        what: "a change of the offset",
        fields: Fields {
            site: 1,
            seq: 2,
            stamp: 2,
            does: Does::ChangeLooks(4, (b"Oberon10.Scn.Fnt", 1, -128), &[(513, 0, 1)]),
        },
        bytes: b"OT\x01\x03\x00\x01\x00\x01\x00\x00\x00\x02\x00\x00\x00\x00\x00\x00\x00\x02\
            \x04\x80\x00\x01\x02\x01\x00\x00\x00\x00\x00\x00\x00\x01",
    },
];
