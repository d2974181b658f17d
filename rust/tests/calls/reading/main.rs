//! Reading and writing characters, tokens, the cost of finding a command, and a shelf whose calls fail.
use char_files::{Buffer, CharFile, Plain, Source};
use command_words::{Command, command_at, menu_text};
use fallible::Global;
use looks::{Colour, FontName, Looks, Refusal};
use reader_scanner::{Class, Reader, Scanner, TokenValue, Writer};
use shelf::{MemoryShelf, Shelf};
use std::cell::Cell;

// Whether these characters come next, in these looks.
fn come<S: Source>(reader: &mut Reader<'_, S>, bytes: &[u8], looks: &Looks) -> bool {
    bytes
        .iter()
        .all(|byte| reader.read() == Some((*byte, looks.copy())))
}

#[test]
fn a_writer_has_looks() {
    let red = Looks {
        font: FontName::new(b"Oberon12.Scn.Fnt").unwrap(),
        colour: Colour::new(2).unwrap(),
        offset: -3,
    };
    let mut writer = Writer::new(Global);
    writer.write(b'a').unwrap();
    writer.set_font(red.font.copy());
    writer.set_colour(red.colour);
    writer.set_offset(red.offset);
    writer.write_string(b"bc").unwrap();
    writer.write_int(-42, 6).unwrap();
    writer.write_ln().unwrap();
    let buffer = writer.into_buffer();
    let copy = buffer.copy().unwrap();
    for written in [&buffer, &copy] {
        assert_eq!((written.len(), written.runs().len()), (10, 2));
        let mut reader = Reader::open(written, 0);
        assert!(come(&mut reader, b"a", &Looks::plain()) && come(&mut reader, b"bc   -42\r", &red));
        assert_eq!((reader.read(), reader.pos()), (None, 10));
    }
}

#[test]
fn numbers_are_written() {
    for (number, width, text) in [
        (-42, 6, "   -42"),
        (12345, 3, "12345"),
        (0, 2, " 0"),
        (i32::MIN, 0, "-2147483648"),
        (i32::MAX, 12, "  2147483647"),
    ] {
        let mut writer = Writer::new(Global);
        writer.write_int(number, width).unwrap();
        let buffer = writer.into_buffer();
        assert_eq!(buffer.len(), text.len() as u64);
        assert!(come(
            &mut Reader::open(&buffer, 0),
            text.as_bytes(),
            &Looks::plain()
        ));
    }
}

// 2^24 characters can be written and no more, and none of those that don't fit.
#[test]
fn the_longest_buffer_and_file() {
    let block = [b'o'; 4096];
    let mut writer = Writer::new(Global);
    writer.write_string(&block[..4091]).unwrap();
    let mut file = CharFile::new(Global);
    file.append(&block).unwrap();
    for i in 1..4096 {
        writer.write_string(&block).unwrap();
        assert_eq!(file.append(&block), Ok(i * 4096));
    }
    assert_eq!(writer.write_int(-42, 6), Err(Refusal::FileSpent));
    writer.write_int(-42, 5).unwrap();
    assert_eq!(writer.write(b'n'), Err(Refusal::FileSpent));
    assert_eq!(writer.write_ln(), Err(Refusal::FileSpent));
    let mut buffer: Buffer = writer.into_buffer();
    assert_eq!(buffer.push(b'n', Looks::plain()), Err(Refusal::FileSpent));
    assert_eq!(
        buffer.push_all(b"n", &Looks::plain()),
        Err(Refusal::FileSpent)
    );
    assert_eq!((buffer.len(), buffer.is_empty()), (0x0100_0000, false));
    let mut reader = Reader::open(&buffer, 0x00ff_fffb);
    assert!(come(&mut reader, b"  -42", &Looks::plain()) && reader.read().is_none());
    assert_eq!(
        (file.len(), file.append(b"")),
        (0x0100_0000, Ok(0x0100_0000))
    );
    assert_eq!(file.append(b"n"), Err(Refusal::FileSpent));
    assert_eq!(file.reserve(1), Err(Refusal::FileSpent));
}

// Sources, and the tokens of each: the class, where it begins and ends, and its number if it is an Int.
const TOKENS: &[(&str, &[(Class, u64, u64, i32)])] = &[
    (
        "X1.y \"a b\" -5 0FFH ^ 12AB",
        &[
            (Class::Name, 0, 4, 0),
            (Class::String, 5, 10, 0),
            (Class::Int, 11, 13, -5),
            (Class::Int, 14, 18, 255),
            (Class::Char, 19, 20, 0),
            (Class::Inval, 21, 25, 0),
            (Class::Inval, 25, 25, 0),
        ],
    ),
    ("\"a\rb", &[(Class::Inval, 0, 2, 0), (Class::Name, 3, 4, 0)]),
    ("12H3", &[(Class::Int, 0, 3, 18), (Class::Int, 3, 4, 3)]),
    ("- 5", &[(Class::Char, 0, 1, 0), (Class::Int, 2, 3, 5)]),
    ("-80000000H", &[(Class::Inval, 0, 10, 0)]),
    ("-2147483647", &[(Class::Int, 0, 11, -2147483647)]),
    ("0FFh", &[(Class::Inval, 0, 3, 0), (Class::Name, 3, 4, 0)]),
    (" \t\r", &[(Class::Inval, 3, 3, 0)]),
];

#[test]
fn tokens_of_sources() {
    for (source, tokens) in TOKENS {
        let plain = Plain(source.as_bytes());
        let mut scanner = Scanner::open(&plain, 0);
        for (class, beg, end, number) in *tokens {
            let token = scanner.scan();
            let of = match token.value {
                TokenValue::Int(number) => number,
                _ => 0,
            };
            assert_eq!(
                (token.class(), token.beg, token.end, of),
                (*class, *beg, *end, *number)
            );
            assert_eq!(scanner.pos(), *end, "{source}");
        }
    }
}

// Bytes as a source that counts how many of them are asked for.
struct Counted<'a> {
    bytes: &'a [u8],
    asked: Cell<u64>,
}

impl Source for Counted<'_> {
    fn len(&self) -> u64 {
        self.bytes.len() as u64
    }

    fn at(&self, pos: u64) -> (u8, Looks) {
        self.asked.set(self.asked.get() + 1);
        Plain(self.bytes).at(pos)
    }
}

fn cost_of(bytes: &[u8], pos: u64) -> u64 {
    let asked = Cell::new(0);
    let source = Counted { bytes, asked };
    assert!(command_at(&source, pos).is_none());
    source.asked.get()
}

// A word of 32 bytes costs the most: itself and the blank before it, and itself again.
const MOST: u64 = 65;

#[test]
fn no_word_costs_more_than_one_of_32_bytes() {
    let text = b" aaaaaaaaaaaaaaaaaaaaaaaaaaaaaaaa ";
    for pos in 1..33 {
        assert_eq!(cost_of(text, pos), MOST);
    }
    assert_eq!((cost_of(text, 0), cost_of(text, 34)), (1, 0));
    let word = vec![b'a'; 1_048_576];
    for step in 0..1_025 {
        assert!(cost_of(&word, step) <= MOST && cost_of(&word, step * 1_023) <= MOST);
    }
}

#[test]
fn a_menu_calls_the_commands_that_it_names() {
    for (viewer, text, menu) in [
        (9, 10, "V9 T10 | System.Close Edit.Recall Share.Forget"),
        (
            u32::MAX,
            16,
            "V4294967295 T16 | System.Close Edit.Recall Share.Forget",
        ),
    ] {
        let made = menu_text(viewer, text);
        assert_eq!(made.as_slice(), menu.as_bytes());
        for (word, command) in [
            ("System.Close", Command::SystemClose),
            ("Edit.Recall", Command::EditRecall),
            ("Share.Forget", Command::ShareForget),
        ] {
            let pos = menu.find(word).unwrap() as u64;
            let call = command_at(&Plain(made.as_slice()), pos).unwrap();
            assert_eq!((call.command, command.name()), (command, word.as_bytes()));
            assert_eq!(Command::named(word.as_bytes()), Some(command));
            assert!(!command.has_parameter());
        }
    }
}

// Whether the file has these bytes.
fn reads(shelf: &mut MemoryShelf, name: &str, want: &[u8]) -> bool {
    shelf
        .read(Global, name)
        .is_ok_and(|bytes| bytes.as_slice() == want)
}

#[test]
fn the_call_after_the_good_ones_fails() {
    let mut shelf = MemoryShelf::new(Global);
    assert_eq!(shelf.read(Global, "a").err(), Some(Refusal::ReadFault));
    shelf.write("a", b"one").unwrap();
    shelf.write("b", b"two").unwrap();
    for good in 0..20 {
        shelf.good_calls = Some(good);
        for _ in 0..good {
            assert!(reads(&mut shelf, "a", b"one"));
        }
        assert_eq!(shelf.write("a", b"bad"), Err(Refusal::WriteFault));
        assert_eq!(shelf.failures(), good + 2);
        assert!(reads(&mut shelf, "a", b"one") && reads(&mut shelf, "b", b"two"));
    }
    shelf.failures = u64::MAX;
    assert!(shelf.read(Global, "c").is_err() && shelf.failures() == u64::MAX);
}
