//! Indexing with and without bounds checks. Without, every place has to be in range: the callers' loops see to that.

#[inline(always)]
pub fn get<const CHECKED: bool, T: Copy>(list: &[T], at: usize) -> T {
    if CHECKED {
        list[at]
    } else {
        debug_assert!(at < list.len());
        unsafe { *list.get_unchecked(at) }
    }
}

#[inline(always)]
pub fn put<const CHECKED: bool, T>(list: &mut [T], at: usize, value: T) {
    if CHECKED {
        list[at] = value;
    } else {
        debug_assert!(at < list.len());
        unsafe { *list.get_unchecked_mut(at) = value }
    }
}

/// N elements from a place on.
#[inline(always)]
pub fn part<const CHECKED: bool, T, const N: usize>(list: &[T], at: usize) -> &[T; N] {
    if CHECKED {
        list[at..at + N].try_into().expect("N elements")
    } else {
        debug_assert!(at + N <= list.len());
        unsafe { &*list.as_ptr().add(at).cast() }
    }
}

#[inline(always)]
pub fn part_mut<const CHECKED: bool, T, const N: usize>(list: &mut [T], at: usize) -> &mut [T; N] {
    if CHECKED {
        (&mut list[at..at + N]).try_into().expect("N elements")
    } else {
        debug_assert!(at + N <= list.len());
        unsafe { &mut *list.as_mut_ptr().add(at).cast() }
    }
}
