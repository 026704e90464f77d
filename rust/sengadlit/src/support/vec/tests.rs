use super::*;
use std::format;

fn list(items: &[u32]) -> Vec<u32> {
    Vec::from_slice(Global, items).unwrap()
}

#[test]
fn a_new_list_is_empty_and_takes_no_memory() {
    let empty: Vec<u32> = Vec::new(Global);
    assert_eq!(
        (empty.len(), empty.capacity(), empty.is_empty()),
        (0, 0, true)
    );
    assert_eq!(empty, Vec::default());
    assert_eq!(*empty.allocator(), Global);
    assert_eq!(Vec::<u32>::with_capacity(Global, 0).unwrap().capacity(), 0);
}

#[test]
fn a_list_has_the_capacity_that_it_is_made_with() {
    let list: Vec<u32> = Vec::with_capacity(Global, 9).unwrap();
    assert!(list.is_empty());
    assert_eq!(list.capacity(), 9);
    let mut words = self::list(&[1]);
    words.reserve_exact(9).unwrap();
    assert_eq!(words.capacity(), 10);
}

#[test]
fn lists_are_made_of_elements() {
    assert_eq!(list(&[3, 1, 2]).as_slice(), [3, 1, 2]);
    assert_eq!(Vec::from_elem(Global, 7, 3).unwrap(), list(&[7, 7, 7]));
    assert!(Vec::from_elem(Global, 7, 0).unwrap().is_empty());
}

#[test]
fn what_has_no_place_in_memory_is_refused_and_changes_nothing() {
    let mut words = list(&[1, 2]);
    let room = words.capacity();
    assert_eq!(words.reserve(usize::MAX), Err(AllocError));
    assert_eq!(words.reserve_exact(usize::MAX), Err(AllocError));
    assert_eq!(words.resize(usize::MAX, 0), Err(AllocError));
    assert_eq!((words.as_slice(), words.capacity()), (&[1, 2][..], room));
    assert_eq!(
        Vec::<u64>::with_capacity(Global, usize::MAX),
        Err(AllocError)
    );
    assert_eq!(
        Vec::from_elem(Global, 1_u64, usize::MAX / 8),
        Err(AllocError)
    );
}

#[test]
fn what_was_reserved_takes_no_memory() {
    let mut words = list(&[1]);
    words.reserve(40).unwrap();
    let (place, room) = (words.as_ptr(), words.capacity());
    words.resize(20, 5).unwrap();
    words.extend_from_slice(&[6; 10]).unwrap();
    for word in 0..10 {
        words.push(word).unwrap();
    }
    words.reserve(room - words.len()).unwrap();
    assert_eq!(words.len(), 40);
    assert_eq!((words.as_ptr(), words.capacity()), (place, room));
}

#[test]
fn elements_are_added_and_taken_at_the_end() {
    let mut words = list(&[1]);
    words.push(2).unwrap();
    words.extend_from_slice(&[3, 4]).unwrap();
    words.extend_from_slice(&[]).unwrap();
    assert_eq!(words.as_slice(), [1, 2, 3, 4]);
    assert_eq!(words.pop(), Some(4));
    words.clear();
    assert_eq!(words.pop(), None);
}

#[test]
fn elements_are_put_in_and_taken_out_at_a_place() {
    let mut words = list(&[1, 2]);
    words.insert(0, 0).unwrap();
    words.insert(3, 3).unwrap();
    words.insert(1, 9).unwrap();
    assert_eq!(words.as_slice(), [0, 9, 1, 2, 3]);
    assert_eq!(words.remove(1), 9);
    assert_eq!(words.as_slice(), [0, 1, 2, 3]);
}

#[test]
fn resizing_cuts_or_fills_up() {
    let mut words = list(&[1, 2, 3]);
    let room = words.capacity();
    words.resize(1, 9).unwrap();
    assert_eq!((words.as_slice(), words.capacity()), (&[1][..], room));
    words.resize(3, 9).unwrap();
    assert_eq!(words.as_slice(), [1, 9, 9]);
    words.truncate(5);
    assert_eq!(words.len(), 3);
    words.truncate(0);
    assert_eq!((words.is_empty(), words.capacity()), (true, room));
}

#[test]
fn appending_empties_the_other_list() {
    let (mut words, mut more) = (list(&[1]), list(&[2, 3]));
    words.append(&mut more).unwrap();
    assert_eq!(words.as_slice(), [1, 2, 3]);
    assert!(more.is_empty());
}

#[test]
fn a_list_is_gone_through_as_a_slice_is() {
    let mut words = list(&[3, 1, 2]);
    for word in &mut words {
        *word += 1;
    }
    words.sort();
    words[0] = 9;
    assert_eq!(words.as_mut_slice(), [9, 3, 4]);
    assert_eq!((&words).into_iter().sum::<u32>(), 16);
    assert!(words.into_iter().eq([9, 3, 4]));
}

#[test]
fn lists_go_to_rusts_own_and_back() {
    let own: vec::Vec<_> = [1, 2].into_iter().collect();
    let place = own.as_slice().as_ptr();
    let words = Vec::from(own);
    assert_eq!(words.as_ptr(), place);
    assert_eq!(vec::Vec::from(words).as_slice(), [1, 2]);
    assert_eq!(format!("{:?}", list(&[1, 2])), "[1, 2]");
}
