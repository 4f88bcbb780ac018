//! Slices lent to a call. Each stands after a margin that the call must leave, and ends where a page begins that
//! cannot be read or written.

use std::cell::RefCell;
use std::os::raw::c_void;

/// The bytes of a page, as Linux has them on x86-64.
const PAGE: usize = 4096;

/// The least bytes before a slice.
const MARGIN: usize = 64;

extern "C" {
    fn mmap(at: *mut c_void, len: usize, may: i32, flags: i32, file: i32, from: i64)
        -> *mut c_void;
    fn mprotect(at: *mut c_void, len: usize, may: i32) -> i32;
}

/// Whole pages with a page after them that cannot be touched.
struct Region {
    base: *mut u8,
    size: usize,
}

impl Region {
    fn new(least: usize) -> Region {
        const NOTHING: i32 = 0;
        const READ_AND_WRITE: i32 = 3;
        const PRIVATE_ANONYMOUS: i32 = 0x22;
        let size = (least + PAGE - 1) / PAGE * PAGE;
        // Safety: the pages are new, and nobody else's.
        unsafe {
            let none = std::ptr::null_mut();
            let base = mmap(none, size + PAGE, READ_AND_WRITE, PRIVATE_ANONYMOUS, -1, 0);
            assert!(base as isize != -1, "no memory");
            let base = base.cast::<u8>();
            assert_eq!(mprotect(base.add(size).cast(), PAGE, NOTHING), 0);
            Region { base, size }
        }
    }

    /// A region of at least so many bytes, one from before if there is one.
    fn take(least: usize) -> Region {
        let found = REGIONS.with(|regions| {
            let mut regions = regions.borrow_mut();
            let fits = regions.iter().position(|region| region.size >= least);
            fits.map(|i| regions.swap_remove(i))
        });
        found.unwrap_or_else(|| Region::new(least))
    }
}

thread_local! {
    /// The regions that no slice uses.
    static REGIONS: RefCell<Vec<Region>> = const { RefCell::new(Vec::new()) };
}

/// A copy of a slice of numbers, at the end of a region.
pub struct Lent<T: Copy> {
    region: Region,
    before: Vec<T>,
    fill: u8,
}

impl<T: Copy + PartialEq> Lent<T> {
    /// A copy, after a margin of bytes that are `fill`.
    pub fn new(slice: &[T], fill: u8) -> Lent<T> {
        let bytes = std::mem::size_of_val(slice);
        let mut lent = Lent { region: Region::take(MARGIN + bytes), before: slice.to_vec(), fill };
        lent.margin_mut().fill(fill);
        lent.slice_mut().copy_from_slice(slice);
        lent
    }

    /// Where the slice begins.
    fn start(&self) -> *mut T {
        let bytes = std::mem::size_of_val(&self.before[..]);
        // Safety: the region has room for the margin and the slice, and ends at a multiple of their alignment.
        unsafe { self.region.base.add(self.region.size - bytes).cast() }
    }

    pub fn slice(&self) -> &[T] {
        // Safety: these elements were copied here.
        unsafe { std::slice::from_raw_parts(self.start(), self.before.len()) }
    }

    pub fn slice_mut(&mut self) -> &mut [T] {
        // Safety: as above; numbers may have any bits.
        unsafe { std::slice::from_raw_parts_mut(self.start(), self.before.len()) }
    }

    fn margin_mut(&mut self) -> &mut [u8] {
        // Safety: these bytes are the region's, before the slice.
        unsafe { std::slice::from_raw_parts_mut(self.start().cast::<u8>().sub(MARGIN), MARGIN) }
    }

    /// The margin is as it was, and the slice too.
    pub fn same(mut self) {
        assert!(self.slice() == self.before, "what was lent to be read has changed");
        self.margin();
    }

    /// The margin is as it was; the slice is copied back.
    pub fn back(mut self, slice: &mut [T]) {
        self.margin();
        slice.copy_from_slice(self.slice());
    }

    fn margin(&mut self) {
        let fill = self.fill;
        let left = self.margin_mut().iter().all(|&byte| byte == fill);
        assert!(left, "written before what was lent");
    }
}

impl<T: Copy> Drop for Lent<T> {
    fn drop(&mut self) {
        let region = Region { base: self.region.base, size: self.region.size };
        REGIONS.with(|regions| regions.borrow_mut().push(region));
    }
}
