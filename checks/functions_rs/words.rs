//! The values of the proved program as words, which the other crate's values have, too.

use core::sync::atomic::{AtomicBool, AtomicU64, Ordering};

/// Words to be read.
pub struct Reader<'a>(pub &'a [u64]);

impl Reader<'_> {
    pub fn next(&mut self) -> u64 {
        let (first, rest) = self.0.split_first().expect("words");
        self.0 = rest;
        *first
    }
}

/// A value that is made of words, and makes words again.
pub trait Words: Copy {
    /// # Safety
    ///
    /// The words are those that a value of the other crate's counterpart gave: lengths and variants fit.
    unsafe fn load(words: &mut Reader) -> Self;
    /// # Safety
    ///
    /// Each pointer in the value is one that `load` or the proved program made since `clear`.
    unsafe fn dump(&self, words: &mut Vec<u64>);
}

macro_rules! integers {
    ($($type:ty)*) => {
        $(impl Words for $type {
            unsafe fn load(words: &mut Reader) -> Self { words.next() as $type }
            unsafe fn dump(&self, words: &mut Vec<u64>) { words.push(*self as u64); }
        })*
    };
}

integers! { u16 u32 u64 }

impl Words for u8 {
    unsafe fn load(words: &mut Reader) -> Self { words.next() as u8 }
    unsafe fn dump(&self, words: &mut Vec<u64>) { words.push(u64::from(*self)); }
}

impl Words for u128 {
    unsafe fn load(words: &mut Reader) -> Self { u128::from(words.next()) | u128::from(words.next()) << 64 }
    unsafe fn dump(&self, words: &mut Vec<u64>) { words.extend([*self as u64, (*self >> 64) as u64]); }
}

impl Words for bool {
    unsafe fn load(words: &mut Reader) -> Self { words.next() != 0 }
    unsafe fn dump(&self, words: &mut Vec<u64>) { words.push(u64::from(*self)); }
}

impl Words for () {
    unsafe fn load(_words: &mut Reader) -> Self {}
    unsafe fn dump(&self, _words: &mut Vec<u64>) {}
}

impl<T: Words, const N: usize> Words for [T; N] {
    // SAFETY: the words of N values follow one another.
    unsafe fn load(words: &mut Reader) -> Self { core::array::from_fn(|_| unsafe { T::load(words) }) }
    // SAFETY: what holds of the array holds of each value.
    unsafe fn dump(&self, words: &mut Vec<u64>) { self.iter().for_each(|it| unsafe { it.dump(words) }); }
}

impl<T: Words> Words for *mut T {
    unsafe fn load(words: &mut Reader) -> Self {
        // SAFETY: a pointer's words are those of what it points to.
        let value = unsafe { T::load(words) };
        let place = place(size_of::<T>(), align_of::<T>()) as *mut T;
        // SAFETY: there is room for one value, aligned.
        unsafe { place.write(value) };
        place
    }
    // SAFETY: the pointer is one that was made since `clear`.
    unsafe fn dump(&self, words: &mut Vec<u64>) { unsafe { (**self).dump(words) } }
}

/// The place and the number of elements of a list that is read.
///
/// # Safety
///
/// As for `Words::load`.
pub unsafe fn load_list<T: Words>(words: &mut Reader) -> (*mut T, u64) {
    let len = words.next() as usize;
    let start = place(len * size_of::<T>(), align_of::<T>()) as *mut T;
    for i in 0..len {
        // SAFETY: there is room for `len` elements at least, aligned, and their words follow one another.
        unsafe { start.add(i).write(T::load(words)) };
    }
    (start, len as u64)
}

/// The same of a list that can grow, behind whose length its capacity stands, and the capacity.
///
/// # Safety
///
/// As for `Words::load`; the capacity is at least the length.
pub unsafe fn load_growing<T: Words>(words: &mut Reader) -> (*mut T, u64, u64) {
    let (len, capacity) = (words.next() as usize, words.next() as usize);
    let start = place(capacity * size_of::<T>(), align_of::<T>()) as *mut T;
    for i in 0..len {
        // SAFETY: there is room for `len` elements at least, aligned, and their words follow one another.
        unsafe { start.add(i).write(T::load(words)) };
    }
    (start, len as u64, capacity as u64)
}

/// Writes the words of a list.
///
/// # Safety
///
/// `start` points to so many elements, of each of which what `Words::dump` requires holds.
pub unsafe fn dump_list<T: Words>(start: *mut T, len: u64, words: &mut Vec<u64>) {
    words.push(len);
    for i in 0..len as usize {
        // SAFETY: the list has more than `i` elements.
        unsafe { (*start.add(i)).dump(words) };
    }
}

// The room that a call takes, given back as a whole.
static mut ROOM: Vec<Vec<u128>> = Vec::new();
static mut USED: (usize, usize) = (0, 0);

/// Room for so many bytes, until `clear`.
pub fn place(size: usize, align: usize) -> *mut u8 {
    assert!(align <= 16);
    let words = size.div_ceil(16) + 1;
    // SAFETY: one thread runs, no reference to the statics outlives a call, and the place lies in a block
    // that has `words` more places and is never made longer.
    unsafe {
        let (room, used) = (&mut *&raw mut ROOM, &mut *&raw mut USED);
        while used.0 < room.len() && used.1 + words > room[used.0].len() {
            *used = (used.0 + 1, 0);
        }
        if used.0 == room.len() {
            room.push(vec![0; words.max(1 << 16)]);
        }
        let start = room[used.0].as_mut_ptr().add(used.1) as *mut u8;
        used.1 += words;
        start
    }
}

/// Gives all room back.
pub fn clear() {
    // SAFETY: one thread runs, and no reference to the static outlives a call.
    unsafe { USED = (0, 0) };
}

/// Whether room was found, and where: what the proved program's allocator is answered.
#[repr(C)]
pub struct Tried(bool, *mut u8);

// More than this is refused, as the system does.
const MOST: u64 = 1 << 30;

/// What an allocator is asked while a call is watched, of which one request may be refused.
pub struct Watch {
    is_on: AtomicBool,
    requests: AtomicU64,
    /// Which request is refused; 0 none is.
    refused: AtomicU64,
    has_refused: AtomicBool,
}

/// That of the proved program, which is always watched, and that of the copy.
pub static PROVED: Watch = Watch::new(true);
pub static COPY: Watch = Watch::new(false);

impl Watch {
    const fn new(is_on: bool) -> Self {
        Watch { is_on: AtomicBool::new(is_on), requests: AtomicU64::new(0), refused: AtomicU64::new(0), has_refused: AtomicBool::new(false) }
    }

    /// Counts from 0 again, and refuses this request.
    pub fn refuse(&self, number: u64) {
        self.requests.store(0, Ordering::Relaxed);
        self.refused.store(number, Ordering::Relaxed);
        self.has_refused.store(false, Ordering::Relaxed);
    }

    /// Says whether what is asked from now on counts; returns whether it did before.
    pub fn watch(&self, is_on: bool) -> bool {
        self.is_on.swap(is_on, Ordering::Relaxed)
    }

    pub fn requests(&self) -> u64 {
        self.requests.load(Ordering::Relaxed)
    }

    pub fn has_refused(&self) -> bool {
        self.has_refused.load(Ordering::Relaxed)
    }

    /// Counts a request for so many bytes, and says whether it is refused.
    pub fn refuses(&self, size: u64) -> bool {
        if !self.is_on.load(Ordering::Relaxed) {
            return false;
        }
        let number = self.requests.fetch_add(1, Ordering::Relaxed) + 1;
        let refuses = number == self.refused.load(Ordering::Relaxed) || size > MOST;
        self.has_refused.fetch_or(refuses, Ordering::Relaxed);
        refuses
    }
}

pub fn heap_alloc<M>(_memory: M, size: u64, align: u64) -> Tried {
    match !PROVED.refuses(size) {
        true => Tried(true, place(size as usize, align as usize)),
        false => Tried(false, core::ptr::null_mut()),
    }
}

pub fn heap_realloc<M>(memory: M, block: *mut u8, old: u64, new: u64, align: u64) -> Tried {
    let tried = heap_alloc(memory, new, align);
    if tried.0 {
        // SAFETY: the block has `old` bytes and the new one `new`, and they are apart.
        unsafe { core::ptr::copy_nonoverlapping(block, tried.1, old.min(new) as usize) };
    }
    tried
}

pub fn heap_dealloc<M>(_memory: M, _block: *mut u8) {}
