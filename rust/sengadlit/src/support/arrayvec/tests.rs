use super::*;
use std::format;
use std::string::ToString;

fn list(items: &[u32]) -> ArrayVec<u32, 3> {
    let mut list = ArrayVec::new();
    list.try_extend_from_slice(items).unwrap();
    list
}

#[test]
fn a_new_list_is_empty() {
    let none = ArrayVec::<char, 0>::new();
    assert!(none.is_empty() && none.is_full());
    assert_eq!(ArrayVec::<u32, 3>::default().as_slice(), []);
    assert_eq!(list(&[]).capacity(), 3);
}

#[test]
fn elements_are_added_at_the_end() {
    let mut three = list(&[7, 8]);
    assert!(!three.is_full());
    three.push(9);
    assert_eq!(three.as_slice(), [7, 8, 9]);
    assert_eq!((three.len(), three.is_full()), (3, true));
    assert_eq!(three.try_extend_from_slice(&[]), Ok(()));
}

#[test]
fn all_elements_are_added_or_none() {
    let mut three = list(&[7]);
    let refusal = three.try_extend_from_slice(&[1, 2, 3]);
    assert_eq!(refusal, Err(CapacityError::new(())));
    assert_eq!(three, list(&[7]));
    assert_eq!(three.try_extend_from_slice(&[8, 9]), Ok(()));
    assert_eq!(three.as_slice(), [7, 8, 9]);
}

#[test]
fn an_element_that_finds_no_room_comes_back() {
    let mut three = list(&[7, 8]);
    assert_eq!(three.try_push(9), Ok(()));
    let refusal = three.try_push(10).unwrap_err();
    assert_eq!(refusal.to_string(), "insufficient capacity");
    assert_eq!(refusal.element(), 10);
    assert_eq!(three, list(&[7, 8, 9]));
}

#[test]
#[should_panic]
fn a_full_list_takes_no_element() {
    list(&[7, 8, 9]).push(10);
}

#[test]
fn elements_are_taken_from_the_end() {
    let mut three = list(&[7, 8, 9]);
    assert_eq!(three.pop(), Some(9));
    three.truncate(5);
    assert_eq!(three.as_slice(), [7, 8]);
    three.truncate(1);
    assert_eq!(three.as_slice(), [7]);
    three.clear();
    assert_eq!((three.pop(), three.len()), (None, 0));
}

#[test]
fn what_was_taken_away_is_seen_no_more() {
    let mut three = list(&[7, 8, 9]);
    three.truncate(2);
    assert_eq!(three, list(&[7, 8]));
    assert_ne!(three, list(&[7]));
    assert_eq!(format!("{three:?}"), "[7, 8]");
}

#[test]
fn a_list_is_gone_through_as_a_slice_is() {
    let mut three = list(&[9, 7, 8]);
    three.sort();
    three[0] = 1;
    assert_eq!(three.as_mut_slice(), [1, 8, 9]);
    assert_eq!((&three).into_iter().sum::<u32>(), 18);
}
