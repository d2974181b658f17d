use fallible::{AllocError, Global, Vec};

// How alike two words have to be.
const ALIKE: f64 = 0.7;

// The letters of a word that stand in another too, near the same place and each once, in their order.
fn shared(alloc: Global, word: &str, other: &str, near: usize) -> Result<Vec<char>, AllocError> {
    let mut taken = Vec::new(alloc);
    let mut found = Vec::new(alloc);
    for (at, letter) in word.chars().enumerate() {
        let places = other
            .chars()
            .enumerate()
            .skip(at.saturating_sub(near))
            .take(near + 1 + at.min(near));
        let place = places
            .filter(|(place, it)| *it == letter && !taken.contains(place))
            .map(|(place, _)| place)
            .next();
        if let Some(place) = place {
            taken.push(place)?;
            found.push(letter)?;
        }
    }
    Ok(found)
}

// How alike two words are, 0 to 1, by Jaro.
fn jaro(alloc: Global, word: &str, other: &str) -> Result<f64, AllocError> {
    let (len, of_other) = (word.chars().count(), other.chars().count());
    if len == 0 || of_other == 0 {
        return Ok(0.0);
    }
    let near = (len.max(of_other) / 2).saturating_sub(1);
    let (here, there) = (
        shared(alloc, word, other, near)?,
        shared(alloc, other, word, near)?,
    );
    if here.is_empty() {
        return Ok(0.0);
    }
    let moved = here
        .iter()
        .zip(&there)
        .filter(|(one, other)| one != other)
        .count()
        / 2;
    let count = here.len() as f64;
    Ok((count / len as f64 + count / of_other as f64 + (count - moved as f64) / count) / 3.0)
}

/// Of these words the one that is most like another, if one is like it.
pub(crate) fn most_alike<'a>(
    alloc: Global,
    word: &str,
    words: impl Iterator<Item = &'a str>,
) -> Result<Option<&'a str>, AllocError> {
    let mut best = (ALIKE, None);
    for each in words {
        let alike = jaro(alloc, word, each)?;
        if best.0 < alike {
            best = (alike, Some(each));
        }
    }
    Ok(best.1)
}
