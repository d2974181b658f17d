//! The ring that holds pieces.
use fallible::Global;
use piece_raw::Ring;

// The members after this one, or all.
fn left(ring: &Ring<u32>, last: Option<u64>) -> Vec<(u64, u32)> {
    let mut found = Vec::new();
    found.extend(ring.rest_after(last).map(|(tag, value)| (tag, *value)));
    found
}

fn push(ring: &mut Ring<u32>, value: u32) -> u64 {
    ring.push_after(value).ok().expect("memory")
}

#[test]
fn a_ring_of_four() {
    let mut ring = Ring::new(Global).unwrap();
    assert!(left(&ring, None).is_empty() && ring.tag().is_none() && ring.first().is_none());
    ring.reserve(2).unwrap();
    assert_eq!((push(&mut ring, 10), push(&mut ring, 20)), (0, 1));
    ring.seek(0);
    assert_eq!(push(&mut ring, 15), 2);
    ring.to_trailer();
    assert_eq!(push(&mut ring, 5), 3);
    assert_eq!(left(&ring, None), [(3, 5), (0, 10), (2, 15), (1, 20)]);
    assert_eq!(left(&ring, Some(3)), [(0, 10), (2, 15), (1, 20)]);
    // The cursor goes from the first member back over the trailer, and on again.
    for want in [None, Some(1)] {
        ring.prev();
        assert_eq!(ring.tag(), want);
    }
    for want in [None, Some(3)] {
        ring.next();
        assert_eq!(ring.tag(), want);
    }
    *ring.value_mut() += 1;
    assert_eq!((*ring.value(), *ring.value_at(1)), (6, 20));
    assert_eq!(
        (ring.first(), ring.before(3), ring.after(3)),
        (Some(3), None, Some(0))
    );
    assert_eq!((ring.before(1), ring.after(1)), (Some(2), None));
    assert!(left(&ring, Some(1)).is_empty() && ring.from(None).next().is_none());
    assert!(ring.from(Some(1)).eq([(1, &20)]));
}
