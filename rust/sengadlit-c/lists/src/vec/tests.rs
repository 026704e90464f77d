use super::{Growth, Lender, Refused, Vec};
use core::cell::{Cell, RefCell};
use core::ptr::NonNull;
use std::boxed::Box;
use std::rc::Rc;
use std::{vec, vec::Vec as Own};

// An array that grows up to a bound, or not at all.
struct Array {
    items: RefCell<Own<u32>>,
    most: Option<usize>,
    ends: Cell<u32>,
}

// SAFETY: the array is the list's, as long as it is.
unsafe impl Lender for Array {
    fn grow(&self, len: usize, wanted: usize) -> Growth {
        assert!(len < wanted);
        let mut items = self.items.borrow_mut();
        match self.most {
            None => Growth::Own,
            Some(most) if wanted > most => Growth::Refused,
            Some(_) => {
                items.resize(wanted, 0);
                Growth::Array(NonNull::new(items.as_mut_ptr()).unwrap().cast(), wanted)
            }
        }
    }

    fn end(&self) {
        self.ends.set(self.ends.get() + 1);
    }
}

// A list in an array of so many items, the first two of which are 1 and 2.
fn lent(room: usize, most: Option<usize>) -> (Vec<u32>, Box<Array>) {
    let mut items = vec![0; room];
    items[..2].copy_from_slice(&[1, 2]);
    let array = Box::new(Array {
        items: RefCell::new(items),
        most,
        ends: Cell::new(0),
    });
    let first = NonNull::new(array.items.borrow_mut().as_mut_ptr()).unwrap();
    let lender: NonNull<dyn Lender> = NonNull::from(&*array);
    // SAFETY: the items are there, and the array lasts longer than the list and is used by nobody else.
    (unsafe { Vec::borrowed(lender, first, 2, room) }, array)
}

// All that a list can do within its room, which leaves 1, 2.
fn use_room(list: &mut Vec<u32>) {
    list.push(3);
    list.insert(1, 9);
    assert_eq!(list.as_slice(), [1, 9, 2, 3]);
    assert_eq!((list.remove(1), list.pop()), (9, Some(3)));
    list.extend_from_slice(&[4, 5]);
    list.resize(5, 6);
    assert_eq!(list.as_slice(), [1, 2, 4, 5, 6]);
    list.truncate(2);
    let mut others = Vec::from(vec![7, 8]);
    list.append(&mut others);
    assert_eq!((list.as_slice(), others.len()), (&[1, 2, 7, 8][..], 0));
    list.as_mut_slice()[2] = 3;
    list.resize(2, 0);
    assert_eq!(list.as_slice(), [1, 2]);
}

#[test]
fn a_list_of_its_own() {
    let mut list = Vec::new();
    assert_eq!((list.capacity(), list.pop()), (0, None));
    list.extend_from_slice(&[1, 2]);
    use_room(&mut list);
    list.clear();
    assert!(list.is_empty() && list.capacity() > 0);
    assert_eq!(list.try_reserve(usize::MAX), Err(Refused));
    assert_eq!(list.try_reserve_exact(usize::MAX / 8), Err(Refused));
    assert!(list.try_reserve_exact(1000).is_ok() && list.capacity() >= 1000);
    assert_eq!((1..4).collect::<Vec<_>>().into_iter().sum::<u32>(), 6);
    assert!((1..4).collect::<Vec<_>>().into_iter().eq(1..4));
}

#[test]
fn items_are_dropped_once() {
    let item = Rc::new(());
    let mut list: Vec<Rc<()>> = (0..5).map(|_| Rc::clone(&item)).collect();
    list.push(Rc::clone(&item));
    assert_eq!(Rc::strong_count(&item), 7);
    list.truncate(4);
    drop(list.remove(0));
    assert_eq!(Rc::strong_count(&item), 4);
    let mut items = list.into_iter();
    drop(items.next());
    assert_eq!(Rc::strong_count(&item), 3);
    drop(items);
    assert_eq!(Rc::strong_count(&item), 1);
}

#[test]
fn a_list_works_in_the_array() {
    let (mut list, array) = lent(6, Some(6));
    let first = list.as_slice().as_ptr();
    use_room(&mut list);
    assert_eq!(list.as_slice().as_ptr(), first);
    drop(list);
    assert_eq!(array.ends.get(), 1);
    assert_eq!(array.items.borrow()[..2], [1, 2]);
}

#[test]
fn an_array_grows_or_refuses() {
    let (mut list, array) = lent(2, Some(100));
    list.resize(100, 7);
    assert_eq!(
        (list.capacity(), &list.as_slice()[..3]),
        (100, &[1, 2, 7][..])
    );
    assert_eq!(list.try_reserve(1), Err(Refused));
    assert_eq!(list.try_reserve(usize::MAX), Err(Refused));
    assert_eq!(list.as_slice().len(), 100);
    drop(list);
    assert_eq!(array.ends.get(), 1);
    assert_eq!(array.items.borrow()[99], 7);
}

#[test]
fn a_list_leaves_an_array_that_cant_grow() {
    let (mut list, array) = lent(2, None);
    list.extend_from_slice(&[3]);
    assert_eq!(array.ends.get(), 1);
    list.as_mut_slice()[0] = 9;
    assert_eq!(list.as_slice(), [9, 2, 3]);
    drop(list);
    assert_eq!(array.ends.get(), 1);
    assert_eq!(array.items.borrow()[..], [1, 2]);
}
