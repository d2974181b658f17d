//! A replica that takes in a log, part by part.
use calls::is;
use char_files::{SiteNo, TextNo};
use fallible::{Fail, Global};
use note_replicas::take_rest;
use op_log::Log;
use operations::decode;
use texts::{Outbox, Replica};

fn shown(replica: &Replica) -> String {
    (0..replica.shown_len()).map(|pos| char::from(replica.attributes(pos).0)).collect()
}

#[test]
fn the_rest_of_a_log_is_taken_in() -> Result<(), Fail> {
    let (text, site, other) = (TextNo::new(1).unwrap(), SiteNo::new(1).unwrap(), SiteNo::new(2).unwrap());
    let mut writer = Replica::new(Global, text, site)?;
    let mut outbox = Outbox::new(Global);
    let edited = writer.type_in(0, b"one ", &mut outbox).is_ok()
        && writer.type_in(4, b"two", &mut outbox).is_ok()
        && writer.delete(0, 1, &mut outbox).is_ok();
    is(edited && outbox.len() == 3, "other messages")?;
    let mut reader = Replica::new(Global, text, other)?;
    let mut log = Log::new(Global);
    for (index, wanted) in ["one ", "one two", "ne two"].into_iter().enumerate() {
        log.reserve(site)?;
        log.push(decode(Global, outbox.message(index))?);
        take_rest(&mut reader, &log)?;
        is(shown(&reader) == wanted, "another text")?;
    }
    let mut late = Replica::new(Global, text, other)?;
    take_rest(&mut late, &log)?;
    take_rest(&mut late, &log)?;
    is(shown(&late) == "ne two" && late.taken_len() == 3, "another text")
}
