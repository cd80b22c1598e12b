//! Memory between two pages that can be neither read nor written, and memory longer than there is.

use std::cell::RefCell;
use std::ffi::{c_int, c_void};
use std::ptr::null_mut;
use std::slice;

extern "C" {
    fn mmap(address: *mut c_void, len: usize, protection: c_int, flags: c_int, file: c_int, offset: i64)
        -> *mut c_void;
    fn mprotect(address: *mut c_void, len: usize, protection: c_int) -> c_int;
    fn munmap(address: *mut c_void, len: usize) -> c_int;
}

const NO_ACCESS: c_int = 0;
const READ: c_int = 1;
const READ_AND_WRITE: c_int = 1 | 2;
const PRIVATE_AND_ANONYMOUS: c_int = 0x02 | 0x20;
const PAGE: usize = 4096;

thread_local! {
    /// Memory that this thread has given back, for the next that asks.
    static FREE: RefCell<Vec<Mapping>> = const { RefCell::new(Vec::new()) };
}

/// Memory of its own, as long as this value is there.
pub struct Pages(Option<Mapping>);

impl Pages {
    /// At least `len` bytes, with what was stored there last.
    pub fn new(len: usize) -> Pages {
        let len = len.max(PAGE).next_power_of_two();
        let free = FREE.with_borrow_mut(|free| {
            let place = free.iter().position(|mapping| mapping.len == len)?;
            Some(free.swap_remove(place))
        });
        Pages(Some(free.unwrap_or_else(|| Mapping::new(len))))
    }

    pub fn bytes(&self) -> &[u8] {
        let mapping = self.mapping();
        // SAFETY: the bytes are mapped for reading while this value is there.
        unsafe { slice::from_raw_parts(mapping.start(), mapping.len) }
    }

    pub fn bytes_mut(&mut self) -> &mut [u8] {
        let mapping = self.mapping();
        // SAFETY: the bytes are mapped for writing, and this value alone refers to them.
        unsafe { slice::from_raw_parts_mut(mapping.start(), mapping.len) }
    }

    fn mapping(&self) -> &Mapping {
        self.0.as_ref().expect("taken out on drop only")
    }
}

impl Drop for Pages {
    fn drop(&mut self) {
        // Where the thread is about to end, the mapping is undone.
        let mapping = self.0.take();
        let _ = FREE.try_with(|free| free.borrow_mut().extend(mapping));
    }
}

struct Mapping {
    base: *mut c_void,
    len: usize,
}

impl Mapping {
    fn new(len: usize) -> Mapping {
        // SAFETY: asks for new memory, and opens all of it but its first and last page.
        let base = unsafe { mmap(null_mut(), len + 2 * PAGE, NO_ACCESS, PRIVATE_AND_ANONYMOUS, -1, 0) };
        assert_ne!(base as isize, -1, "no memory");
        let opened = unsafe { mprotect(base.byte_add(PAGE), len, READ_AND_WRITE) };
        assert_eq!(opened, 0, "memory that can't be opened");
        Mapping { base, len }
    }

    fn start(&self) -> *mut u8 {
        self.base.cast::<u8>().wrapping_add(PAGE)
    }
}

impl Drop for Mapping {
    fn drop(&mut self) {
        // SAFETY: exactly what was mapped; nothing refers to it any more.
        unsafe { munmap(self.base, self.len + 2 * PAGE) };
    }
}

/// How much of long memory can be stored to.
const WRITABLE: usize = 65_536;

/// These bytes, and zeros up to this length, behind which no memory stands. It is never given back.
pub fn long(bytes: &[u8], len: usize) -> &'static mut [u8] {
    // SAFETY: new memory, which can be read, and stored to at its start.
    let long = unsafe {
        let start = mmap(null_mut(), len.max(WRITABLE), READ, PRIVATE_AND_ANONYMOUS, -1, 0);
        assert_ne!(start as isize, -1, "no memory");
        assert_eq!(mprotect(start, WRITABLE, READ_AND_WRITE), 0, "memory that can't be opened");
        slice::from_raw_parts_mut(start.cast::<u8>(), len)
    };
    long[..bytes.len()].copy_from_slice(bytes);
    long
}

#[cfg(test)]
mod tests {
    use super::*;
    use std::env;
    use std::os::unix::process::ExitStatusExt;
    use std::process::Command;

    const PLACE: &str = "BURGEE_TOUCH";
    const SEGMENTATION_FAULT: i32 = 11;

    /// Only for the test below, which runs it in a process of its own.
    #[test]
    fn touch() {
        if let Ok(place) = env::var(PLACE) {
            let pages = Pages::new(5_000);
            assert_eq!(pages.bytes().len(), 8_192);
            let at = pages.bytes().as_ptr().wrapping_offset(place.parse().unwrap());
            // SAFETY: none, outside the bytes: the process is to end there.
            unsafe { std::hint::black_box(at.read_volatile()) };
        }
    }

    #[test]
    fn a_touch_outside_is_fatal() {
        for (place, signal) in
            [(0, None), (8_191, None), (-1, Some(SEGMENTATION_FAULT)), (8_192, Some(SEGMENTATION_FAULT))]
        {
            let mut command = Command::new(env::current_exe().unwrap());
            command.args(["--exact", "pages::tests::touch"]).env(PLACE, place.to_string());
            assert_eq!(command.output().unwrap().status.signal(), signal, "at {place}");
        }
    }

    #[test]
    fn memory_is_used_again() {
        let at = Pages::new(100).bytes().as_ptr();
        assert_eq!(Pages::new(200).bytes().as_ptr(), at);
    }
}
