//! What the proofs rely on, each rule once.

use super::{BTreeMap, Blank, Brand, Global, HeapCircularBuffer, Over, Slab, Vec, VecDeque, KEPT};
use std::collections::{HashSet, VecDeque as Ring};

/// The source never asks for more than it may, and never looks up a key that it wasn't given.
fn slab_of(values: &[u64]) -> Slab<u64> {
    let mut slab = Slab::new(Global);
    for value in values {
        assert!(slab.reserve(1).is_ok());
        slab.insert_reserved(*value);
    }
    slab
}

#[test]
fn a_slab_gives_the_key_that_was_left_last() {
    let mut slab = slab_of(&[10, 11, 12]);
    assert_eq!(slab.try_remove(0), Some(10));
    assert_eq!(slab.try_remove(2), Some(12));
    assert_eq!(slab.insert_reserved(20), 2);
    assert_eq!(slab.insert_reserved(21), 0);
    assert_eq!(slab.insert_reserved(22), 3);
}

#[test]
fn a_slab_keeps_each_value_under_its_key() {
    let mut slab = slab_of(&[10, 11, 12]);
    assert_eq!(slab.try_remove(1), Some(11));
    assert_eq!(slab.try_remove(1), None);
    assert_eq!(slab.get(1), None);
    assert_eq!(slab.get_mut(2), Some(&mut 12));
    assert_eq!(slab.get(0), Some(&10));
    assert_eq!(slab.len(), 2);
}

#[test]
fn a_slab_that_was_large_gives_its_room_back_and_the_key_that_was_left_last() {
    let mut slab = slab_of(&[]);
    for last in [9_999, 5_000, 0] {
        let mut keys: std::vec::Vec<_> = (0..10_000).map(|_| slab.insert_reserved(7)).collect();
        let last = keys.remove(last);
        assert!(keys.iter().chain([&last]).all(|key| slab.try_remove(*key) == Some(7)));
        assert!(slab.capacity() <= 2 * KEPT);
        assert_eq!((slab.len(), slab.get(last)), (0, None));
        assert_eq!(slab.try_remove(keys[0]), None);
        assert_eq!(slab.insert_reserved(8), last);
        assert_eq!(slab.try_remove(last), Some(8));
    }
}

#[test]
fn a_value_keeps_its_key_while_room_goes_back() {
    const VALUES: u64 = 10_000;
    let mut slab = Slab::new(Global);
    let keys: std::vec::Vec<_> = (0..VALUES).map(|value| slab.insert_reserved(value)).collect();
    let (stay, go): (std::vec::Vec<_>, std::vec::Vec<_>) =
        keys.iter().copied().zip(0..VALUES).partition(|(_, value)| value % 100 == 99);
    for (key, value) in go {
        assert_eq!(slab.try_remove(key), Some(value));
        // Who left may come back at once, under its key.
        assert_eq!(slab.insert_reserved(value), key);
        assert_eq!(slab.try_remove(key), Some(value));
    }
    assert!(slab.capacity() <= 8 * stay.len());
    let new: std::vec::Vec<_> = (0..VALUES).map(|_| slab.insert_reserved(7)).collect();
    assert_eq!(slab.len(), stay.len() + new.len());
    assert!(new.iter().all(|key| slab.get(*key) == Some(&7)));
    for (key, mut value) in stay {
        assert_eq!(slab.get(key), Some(&value));
        assert_eq!(slab.get_mut(key), Some(&mut value));
        assert_eq!((slab.try_remove(key), slab.try_remove(key)), (Some(value), None));
    }
    assert_eq!(slab.len(), new.len());
}

#[test]
fn a_slab_gives_the_key_that_was_left_last_whatever_moved_before() {
    let mut slab = slab_of(&[7; 4 * KEPT]);
    assert!((0..3 * KEPT).all(|key| slab.try_remove(key) == Some(7)));
    let last = [8, 9].map(|value| slab.insert_reserved(value))[1];
    assert_eq!((slab.try_remove(3 * KEPT), slab.try_remove(last)), (Some(7), Some(9)));
    assert_eq!(slab.insert_reserved(10), last);
}

#[test]
fn a_slab_keeps_a_little_room() {
    let mut slab = slab_of(&[7; KEPT]);
    let before = slab.capacity();
    assert!((0..KEPT).all(|key| slab.try_remove(key) == Some(7)));
    assert_eq!(slab.capacity(), before);
}

#[test]
fn a_slab_drops_what_it_holds() {
    let value = std::rc::Rc::new(());
    let mut slab = Slab::new(Global);
    let keys: std::vec::Vec<_> = (0..3).map(|_| slab.insert_reserved(value.clone())).collect();
    drop(slab.try_remove(keys[1]));
    assert_eq!(std::rc::Rc::strong_count(&value), 3);
    drop(slab);
    assert_eq!(std::rc::Rc::strong_count(&value), 1);
}

#[test]
fn a_bounded_queue_hands_back_what_is_too_much() {
    let mut queue = HeapCircularBuffer::with_capacity(Global, 2).ok().unwrap();
    assert_eq!(queue.try_push_back(1), Ok(()));
    assert_eq!(queue.try_push_back(2), Ok(()));
    assert_eq!(queue.try_push_back(3), Err(3));
    assert_eq!((queue.len(), queue.capacity()), (2, 2));
    assert_eq!(queue.pop_front(), Some(1));
}

#[test]
fn a_bounded_queue_gives_its_oldest_for_one_too_many() {
    let mut queue = HeapCircularBuffer::with_capacity(Global, 2).ok().unwrap();
    assert_eq!(queue.push_back(1), None);
    assert_eq!(queue.push_back(2), None);
    assert_eq!(queue.push_back(3), Some(1));
    assert_eq!((queue.pop_front(), queue.pop_front(), queue.pop_front()), (Some(2), Some(3), None));
}

#[test]
fn a_bounded_queue_takes_its_memory_once() {
    for capacity in 1..20 {
        let mut queue = HeapCircularBuffer::with_capacity(Global, capacity).ok().unwrap();
        let room = queue.0.capacity();
        for message in 0..3 * capacity {
            queue.push_back(message);
        }
        assert_eq!(queue.0.capacity(), room);
    }
}

#[test]
fn an_unbounded_queue_keeps_the_order() {
    let mut queue = VecDeque::<u64, Global>::new(Global);
    for message in 0..100 {
        assert!(queue.push_back(message).is_ok());
    }
    assert_eq!(queue.len(), 100);
    assert!((0..100).all(|message| queue.pop_front() == Some(message)));
    assert_eq!(queue.pop_front(), None);
}

#[test]
fn what_left_a_queue_may_go_back_to_its_front() {
    let mut queue = VecDeque::<u64, Global>::new(Global);
    for message in [1, 2] {
        assert!(queue.push_back(message).is_ok());
    }
    assert_eq!(queue.pop_front(), Some(1));
    queue.push_front_reserved(1);
    assert_eq!((queue.pop_front(), queue.pop_front(), queue.pop_front()), (Some(1), Some(2), None));
}

#[test]
fn a_queue_that_shrinks_frees_its_newest_blocks() {
    const VALUES: usize = 100_000;
    const LEFT: usize = VALUES / 2 - 1_000;
    let mut queue = VecDeque::<usize, Global>::new(Global);
    assert!((0..VALUES).all(|value| queue.push_back(value).is_ok()));
    let place =
        |queue: &VecDeque<usize, Global>, at| queue.get(at).map(|value| value as *const usize);
    let left: HashSet<_> = (0..VALUES - LEFT).map(|at| place(&queue, at)).collect();
    assert!((0..VALUES - LEFT).all(|value| queue.pop_front() == Some(value)));
    assert!((0..LEFT).all(|at| left.contains(&place(&queue, at))));
    assert!((VALUES - LEFT..VALUES).all(|value| queue.pop_front() == Some(value)));
}

#[test]
fn a_list_has_the_room_that_was_asked_for() {
    let mut list = Vec::new(Global);
    assert!(list.try_reserve(3).is_ok());
    let room = list.capacity();
    assert!(room >= 3 && (0..3).all(|value| list.push(value).is_ok()));
    assert_eq!(list.capacity(), room);
    assert!(list.try_reserve(usize::MAX).is_err());
    assert_eq!(list.len(), 3);
}

#[test]
fn a_list_keeps_the_order() {
    let mut list = Vec::with_capacity(Global, 2).ok().unwrap();
    assert!(list.push(1).is_ok());
    assert!(list.push(2).is_ok());
    assert!(list.contains(&2));
    list.retain(|value| *value != 1);
    assert!(list.into_iter().eq([2]));
}

#[test]
fn a_list_that_was_lent_is_the_callers_own() {
    let mut list = std::vec::Vec::with_capacity(3);
    list.push(1);
    let place = list.as_ptr();
    assert!(Over::lent(&mut list, |list: &mut Vec<_>| list.push(2).is_ok()));
    assert_eq!((&list[..], list.as_ptr()), (&[1, 2][..], place));
    let mut queue = Ring::from([1, 2]);
    let first = Over::lent(&mut queue, |queue: &mut VecDeque<_, Global>| queue.pop_front());
    assert_eq!((first, queue), (Some(1), [2].into()));
}

#[test]
fn what_a_queue_was_lent_is_all_there_after_it() {
    let mut values: Ring<_> = (0..5_000_u64).collect();
    Over::lent(&mut values, |queue: &mut VecDeque<_, Global>| {
        assert!((0..5).all(|value| queue.pop_front() == Some(value)));
        assert!((5_000..10_000).all(|value| queue.push_back(value).is_ok()));
        queue.push_front_reserved(4);
    });
    assert!(values.into_iter().eq(4..10_000));
}

/// Queues of values of these bytes are as long as `lengths` says, one after the other.
fn goes_through<const BYTES: usize>(lengths: &[usize]) {
    let value = |number: usize| {
        let mut value = [0_u8; BYTES];
        value.iter_mut().zip(number.to_le_bytes()).for_each(|(place, byte)| *place = byte);
        value
    };
    let (mut queue, mut first, mut next) = (VecDeque::<_, Global>::new(Global), 0, 0);
    for length in lengths {
        while next - first < *length {
            assert!(queue.push_back(value(next)).is_ok());
            next += 1;
        }
        while next - first > *length {
            assert!(queue.pop_front() == Some(value(first)));
            first += 1;
            let used = queue.len();
            queue.shrink_to(2 * used);
        }
        assert!(queue.len() == *length && *length <= queue.capacity());
        assert!((0..*length).all(|place| queue.get(place) == Some(&value(first + place))));
        assert!(queue.get(*length).is_none());
    }
    assert!(queue.len() > 0 || queue.pop_front().is_none());
}

#[test]
fn a_queue_of_any_length_keeps_the_order() {
    let lengths = [0, 3, 0, 4, 1, 5, 4, 8, 0, 9, 3, 20, 7, 600, 512, 1_100, 511, 513, 0, 2_000, 0];
    goes_through::<0>(&lengths);
    goes_through::<1>(&[5_000, 4_096, 20_000, 4_097, 10, 0]);
    goes_through::<8>(&lengths);
    goes_through::<24>(&lengths);
    goes_through::<3_000>(&lengths);
}

#[test]
fn a_map_is_in_the_order_of_its_keys() {
    let mut map = BTreeMap::new(Global);
    assert!(matches!(map.insert(2, 20), Ok(None)));
    assert!(matches!(map.insert(1, 10), Ok(None)));
    assert!(map.values().eq(&[10, 20]));
    assert_eq!(map.remove(&2), Some(20));
    assert_eq!((map.get(&2), map.len()), (None, 1));
    assert!(matches!(map.insert(0, 30), Ok(None)));
    assert_eq!([(); 3].map(|()| map.pop_first()), [Some((0, 30)), Some((1, 10)), None]);
    map.destroy_empty();
}

#[test]
fn a_ledger_takes_no_bytes() {
    let blank: Blank = Blank::new(1);
    let (mut book, mut share) = blank.open::<Brand>();
    book.add(&mut share, 1);
    assert_eq!(std::mem::size_of_val(&book) + std::mem::size_of_val(&share), 0);
}
