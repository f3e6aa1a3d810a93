//! A counted pointer to a head and a list behind it: one allocation, and one word to hold it. rowan's green nodes and tokens are kept so.

use std::{
    alloc::{Layout, alloc, dealloc, handle_alloc_error},
    mem::offset_of,
    ptr::{NonNull, drop_in_place, slice_from_raw_parts_mut},
    slice,
    sync::atomic::{AtomicUsize, Ordering, fence},
};

/// `len` items follow the fields. The count is atomic, because rowan's green trees may be shared between threads and pay for it.
#[repr(C)]
struct Block<H, T> {
    count: AtomicUsize,
    head: H,
    len: usize,
    items: [T; 0],
}

pub(crate) struct Thin<H, T>(NonNull<Block<H, T>>);

impl<H, T> Thin<H, T> {
    /// Items are written where they stay. What the head says of them is known only then, so it is asked for last.
    pub(crate) fn new(mut items: impl ExactSizeIterator<Item = T>, head: impl FnOnce() -> H) -> Self {
        let len = items.len();
        let layout = Self::layout(len);
        // Safety: the layout is not empty and has room for a block with `len` items, all of which are written before anyone gets the block. If
        // `items` or `head` panics, the block is lost and never read.
        unsafe {
            let block = alloc(layout).cast::<Block<H, T>>();
            if block.is_null() {
                handle_alloc_error(layout);
            }
            let first = (&raw mut (*block).items).cast::<T>();
            for i in 0..len {
                first.add(i).write(items.next().expect("as many items as were told"));
            }
            block.write(Block { count: AtomicUsize::new(1), head: head(), len, items: [] });
            Self(NonNull::new_unchecked(block))
        }
    }

    fn layout(len: usize) -> Layout {
        let size = size_of::<T>().checked_mul(len).and_then(|it| it.checked_add(offset_of!(Block<H, T>, items)));
        let layout = size.and_then(|it| Layout::from_size_align(it.max(size_of::<Block<H, T>>()), align_of::<Block<H, T>>()).ok());
        layout.expect("a list that fits into memory")
    }

    fn block(&self) -> &Block<H, T> {
        // Safety: whoever has a `Thin` is counted, or has seen to it that another one is.
        unsafe { self.0.as_ref() }
    }

    pub(crate) fn head(&self) -> &H {
        &self.block().head
    }

    pub(crate) fn items(&self) -> &[T] {
        // Safety: `new` wrote that many items there. The pointer is to the whole allocation, not to a `Block` alone.
        unsafe { slice::from_raw_parts((&raw const (*self.0.as_ptr()).items).cast::<T>(), self.block().len) }
    }

    /// Where it lies: no two that are alive lie at one place.
    pub(crate) fn address(&self) -> NonNull<()> {
        self.0.cast()
    }
}

impl<H, T> Clone for Thin<H, T> {
    fn clone(&self) -> Self {
        if self.block().count.fetch_add(1, Ordering::Relaxed) > isize::MAX as usize {
            std::process::abort();
        }
        Self(self.0)
    }
}

impl<H, T> Drop for Thin<H, T> {
    fn drop(&mut self) {
        if self.block().count.fetch_sub(1, Ordering::Release) != 1 {
            return;
        }
        fence(Ordering::Acquire);
        let (len, block) = (self.block().len, self.0.as_ptr());
        // Safety: this was the last one; the items and the head are dropped once, and the layout is that of `new`.
        unsafe {
            drop_in_place(slice_from_raw_parts_mut((&raw mut (*block).items).cast::<T>(), len));
            drop_in_place(&raw mut (*block).head);
            dealloc(block.cast(), Self::layout(len));
        }
    }
}
