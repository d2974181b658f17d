use crate::error::{EditError, Error, MergeError, UnpackError};
use crate::fronts::{self, Front, Since};
use crate::messages::{Chunks, Messages};
use crate::names::{Name, NameRange, Place};
use crate::view::{Bytes, View};
use char_files::{Buffer, MAX_FILE, SiteNo, TextNo};
use fallible::{Global, Vec};
use kept_file::{KeptForm, load_kept, store_kept};
use list_changes::Change;
use looks::{Colour, FontName, Looks, Refusal, Sel};
use std::fmt;
use std::ops::Range;
use text_chunks::Unpacked;
use texts::{ByNames, EditRefusal, Outbox, Replacement, Replica, Settled, Took};

/// A site's copy of a text.
pub struct Text {
    replica: Replica,
}

/// In which form a text is kept.
#[derive(Clone, Copy, Debug, PartialEq, Eq, Hash)]
pub enum Form {
    /// The messages as they are.
    Messages,
    /// The same in few bytes: mostly one a keystroke.
    Packed,
}

/// Which looks characters are given; none keeps those that they have.
#[derive(Debug, Default)]
pub struct LooksChange {
    /// Their font.
    pub font: Option<FontName>,
    /// Their colour.
    pub colour: Option<Colour>,
    /// Their vertical offset from the base line.
    pub offset: Option<i8>,
}

impl LooksChange {
    // What is selected, and looks that have that.
    fn parts(&self) -> Result<(Sel, Looks), Error> {
        let bits = u8::from(self.font.is_some())
            + 2 * u8::from(self.colour.is_some())
            + 4 * u8::from(self.offset.is_some());
        let selected = Sel::new(bits).ok_or(Error::NothingSelected)?;
        let mut looks = Looks::plain();
        if let Some(font) = &self.font {
            looks.font = font.copy();
        }
        looks.colour = self.colour.unwrap_or(looks.colour);
        looks.offset = self.offset.unwrap_or(looks.offset);
        Ok((selected, looks))
    }
}

// These bytes in these looks.
fn stretch(bytes: &[u8], looks: &Looks) -> Result<Buffer, Error> {
    let mut stretch = Buffer::new(Global);
    if !bytes.is_empty() {
        stretch.push_all(bytes, looks)?;
    }
    Ok(stretch)
}

// The names as a replica takes them.
fn tested(replica: &Replica, names: &[NameRange]) -> Result<Vec<operations::NameRange>, Error> {
    let mut ranges = Vec::new(Global);
    for range in names {
        ranges.push(range.tested()?).map_err(Refusal::from)?;
    }
    if replica.has_names(&ranges) {
        Ok(ranges)
    } else {
        Err(Error::NoName)
    }
}

impl Text {
    /// A text that nothing has changed, of this number, at this site.
    pub fn new(text: u16, site: u16) -> Result<Text, Error> {
        let text = TextNo::new(text).ok_or(Error::NoNumber)?;
        let site = SiteNo::new(site).ok_or(Error::NoNumber)?;
        Ok(Text {
            replica: Replica::new(Global, text, site)?,
        })
    }

    /// The text that a file, in either form, has.
    pub fn load(file: &[u8]) -> Result<Text, Error> {
        Ok(Text {
            replica: load_kept(Global, file)?,
        })
    }

    /// The file of this text, from which it is loaded again.
    pub fn store(&self, form: Form) -> Result<std::vec::Vec<u8>, Error> {
        let form = match form {
            Form::Messages => KeptForm::Messages,
            Form::Packed => KeptForm::Packed,
        };
        let mut file = Vec::new(Global);
        store_kept(form, &self.replica, &mut file)?;
        Ok(file.into_std())
    }

    /// The text, to be read.
    pub fn view(&self) -> View<'_> {
        View::of(&self.replica)
    }

    /// How many characters are shown.
    pub fn len(&self) -> u64 {
        self.view().len()
    }

    /// Whether no character is shown.
    pub fn is_empty(&self) -> bool {
        self.view().is_empty()
    }

    /// The bytes of a range.
    pub fn bytes(&self, range: Range<u64>) -> Result<Bytes<'_>, Error> {
        self.view().bytes(range)
    }

    /// Where a character is that was taken in, though it may be deleted.
    pub fn find(&self, name: Name) -> Result<Place, Error> {
        self.view().find(name)
    }

    /// The fronts of all sites of which operations were taken in.
    pub fn fronts(&self) -> Result<std::vec::Vec<Front>, Error> {
        self.view().fronts()
    }

    // Makes an edit, whose messages are its answer.
    fn edit(
        &mut self,
        edit: impl FnOnce(&mut Replica, &mut Outbox) -> Result<u32, EditRefusal>,
    ) -> Result<Messages, EditError> {
        let mut outbox = Outbox::new(Global);
        let answer = edit(&mut self.replica, &mut outbox);
        let messages = Messages::of(outbox);
        match answer {
            Ok(_) => Ok(messages),
            Err(refusal) => Err(EditError::new(refusal, messages)),
        }
    }

    // Whether so many bytes can be put in at a position.
    fn test_insertion(&self, at: u64, bytes: &[u8]) -> Result<(), Error> {
        if MAX_FILE < bytes.len() as u64 {
            return Err(Error::TooLong);
        }
        self.view().test_position(at)
    }

    /// Puts bytes in default looks after the first `at` characters.
    pub fn insert(&mut self, at: u64, bytes: &[u8]) -> Result<Messages, EditError> {
        self.test_insertion(at, bytes)?;
        self.edit(|replica, outbox| replica.type_in(at, bytes, outbox))
    }

    /// Puts bytes in these looks after the first `at` characters.
    pub fn insert_in_looks(
        &mut self,
        at: u64,
        bytes: &[u8],
        looks: &Looks,
    ) -> Result<Messages, EditError> {
        self.test_insertion(at, bytes)?;
        let stretch = stretch(bytes, looks)?;
        self.edit(|replica, outbox| replica.insert(at, &stretch, outbox))
    }

    /// Takes a range out of what is shown. It is kept for `restore` and `recall`.
    pub fn delete(&mut self, range: Range<u64>) -> Result<Messages, EditError> {
        self.view().test_range(&range)?;
        self.edit(|replica, outbox| replica.delete(range.start, range.end, outbox))
    }

    /// Gives the characters of a range other looks.
    pub fn change_looks(
        &mut self,
        range: Range<u64>,
        change: &LooksChange,
    ) -> Result<Messages, EditError> {
        self.view().test_range(&range)?;
        let (selected, looks) = change.parts()?;
        self.edit(|replica, outbox| {
            replica.change_looks(range.start, range.end, selected, &looks, outbox)
        })
    }

    /// Shows again, where it was, what `delete` took out last.
    pub fn restore(&mut self) -> Result<Messages, EditError> {
        self.edit(Replica::restore)
    }

    /// Puts a copy of what `delete` took out last after the first `at` characters.
    pub fn recall(&mut self, at: u64) -> Result<Messages, EditError> {
        self.view().test_position(at)?;
        self.edit(|replica, outbox| replica.insert_recalled(at, outbox))
    }

    /// Takes the characters of these names out of what is shown, wherever they stand.
    pub fn delete_names(&mut self, names: &[NameRange]) -> Result<Messages, EditError> {
        let ranges = tested(&self.replica, names)?;
        self.edit(|replica, outbox| replica.edit_by_names(ByNames::Delete, &ranges, outbox))
    }

    /// Shows the characters of these names again, wherever they stand.
    pub fn restore_names(&mut self, names: &[NameRange]) -> Result<Messages, EditError> {
        let ranges = tested(&self.replica, names)?;
        self.edit(|replica, outbox| replica.edit_by_names(ByNames::Restore, &ranges, outbox))
    }

    /// Takes in a message of any site, or lets it wait for its causes.
    pub fn take(&mut self, message: &[u8]) -> Result<Took, Error> {
        Ok(self.replica.take(message)?)
    }

    /// Takes in the operations of a chunk, or lets them wait for their causes.
    pub fn unpack(&mut self, chunk: &[u8]) -> Result<Unpacked, UnpackError> {
        Ok(text_chunks::unpack(Global, &mut self.replica, chunk)?)
    }

    /// Takes in what another copy holds, and answers how many operations that was. `settle` takes in what waited for them.
    pub fn merge(&mut self, other: &Text) -> Result<u64, MergeError> {
        Ok(self.replica.merge_from(&other.replica)?)
    }

    /// How many messages wait for their causes, 64 at most.
    pub fn waiting(&self) -> u32 {
        self.replica.waiting()
    }

    /// Takes in what waits, as far as it is ready.
    pub fn settle(&mut self) -> Settled {
        self.replica.settle()
    }

    /// Forgets what waits, and answers how many messages that were. They may come again.
    pub fn forget_waiting(&mut self) -> u32 {
        self.replica.forget_waiting()
    }

    /// What was changed of what is shown since this was asked last: one change after the other leads from what was shown then
    /// to what is shown now.
    pub fn changes(&mut self) -> impl ExactSizeIterator<Item = Change> + use<> {
        self.replica.changes().into_iter()
    }

    /// Ends the noting of changes, for good: those that weren't told are let go with their memory, which grows as others change the text and
    /// `changes` isn't called; `changes` has none from now on. `shown` is how many bytes the caller shows, and `replacement` goes on from
    /// there.
    pub fn end_noting(&mut self, shown: u64) {
        self.replica.end_noting(shown);
    }

    /// Where noting has ended, what was reported last gives way to what is shown, which is reported by that; `None` where changes are noted.
    pub fn replacement(&mut self) -> Option<Replacement> {
        self.replica.replacement()
    }

    /// The messages of what was taken in past these fronts.
    pub fn since(&self, fronts: &[Front]) -> Result<Since<'_>, Error> {
        Since::of(&self.replica, fronts)
    }

    /// The same in chunks.
    pub fn pack(&self, fronts: &[Front]) -> Result<Chunks, Error> {
        let fronts = fronts::tested(fronts)?;
        Ok(Chunks::of(text_chunks::pack(
            Global,
            &self.replica,
            &fronts,
        )?))
    }

    /// The text as it was up to these fronts.
    pub fn past(&self, fronts: &[Front]) -> Result<Past, Error> {
        let fronts = fronts::tested(fronts)?;
        Ok(Past {
            past: self.replica.past(&fronts)?,
        })
    }
}

impl fmt::Debug for Text {
    fn fmt(&self, f: &mut fmt::Formatter<'_>) -> fmt::Result {
        let view = self.view();
        f.debug_struct("Text")
            .field("text", &view.text())
            .field("site", &view.site())
            .field("len", &view.len())
            .finish()
    }
}

/// A text as it was, which is only read.
pub struct Past {
    past: texts::Past,
}

impl Past {
    /// The text, to be read.
    pub fn view(&self) -> View<'_> {
        View::of(self.past.replica())
    }
}
