//! Plays rows of random notes that come on the standard input, up to the first from which a note differs.
#[path = "../note_admission/driven.rs"]
mod driven;
#[path = "../note_rows.rs"]
mod note_rows;
mod played;

use fallible::Fail;
use played::Played;

fn main() -> Result<(), Fail> {
    let mut played = Played::new()?;
    for row in std::io::stdin().lines() {
        let row = row.map_err(|_| "no input")?;
        if let Err(why) = played.play(&row) {
            println!("{:?}", played.tally);
            println!("differs at {row}");
            return Err(why);
        }
    }
    println!("{:?}", played.tally);
    Ok(())
}
