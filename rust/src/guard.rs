//! Memory that ends where a page without access begins, in front and behind: whoever touches a byte beyond what was lent
//! from it is stopped by the machine, and the case that was judged is told. Linux, on any processor: the size of a page is
//! asked for.

use std::cell::Cell;
use std::ffi::c_void;
use std::io::Write;
use std::marker::PhantomData;
use std::ops::Range;
use std::sync::Once;

extern "C" {
    fn mmap(
        at: *mut c_void,
        length: usize,
        access: i32,
        flags: i32,
        file: i32,
        from: i64,
    ) -> *mut c_void;
    fn mprotect(at: *mut c_void, length: usize, access: i32) -> i32;
    fn munmap(at: *mut c_void, length: usize) -> i32;
    fn sysconf(name: i32) -> i64;
    fn signal(number: i32, handler: usize) -> usize;
}

// The same numbers on x86-64 and on Arm.
const NO_ACCESS: i32 = 0;
const READ_AND_WRITE: i32 = 3;
const PRIVATE_AND_ANONYMOUS: i32 = 0x22;
const PAGE_SIZE: i32 = 30;
const SEGMENT_FAULT: i32 = 11;
const DEFAULT_HANDLER: usize = 0;

/// Tells the case that is judged.
type Tells = dyn Fn() -> String;

thread_local! {
    static TELLS: Cell<Option<*const Tells>> = Cell::new(None);
}

/// What `judge` answers. Where it touches a guard, what `tells` says is printed before the machine ends the run.
pub fn watched<R>(tells: &dyn Fn() -> String, judge: impl FnOnce() -> R) -> R {
    static WATCH: Once = Once::new();
    // SAFETY: the handler has the type that a signal's handler has.
    WATCH.call_once(|| unsafe {
        signal(SEGMENT_FAULT, on_touch as extern "C" fn(i32) as usize);
    });
    // SAFETY: the pointer, whose lifetime is forgotten here, is taken away again before `tells` goes.
    let pointer: *const Tells = unsafe { std::mem::transmute(tells as *const dyn Fn() -> String) };
    TELLS.with(|cell| cell.set(Some(pointer)));
    let answer = judge();
    TELLS.with(|cell| cell.set(None));
    answer
}

/// The touch comes again when this returns, and then ends the run. The proved functions ask for no memory, so that the
/// message can.
extern "C" fn on_touch(_number: i32) {
    // SAFETY: back to what the system does by itself.
    unsafe { signal(SEGMENT_FAULT, DEFAULT_HANDLER) };
    if let Some(tells) = TELLS.with(Cell::take) {
        // SAFETY: `watched` has not come back, so that this still stands.
        let case = unsafe { (*tells)() };
        let said = writeln!(std::io::stderr(), "a byte beside a lent buffer is touched:\n{case}");
        said.expect("standard error");
    }
}

/// At which end of the memory a buffer is lent.
#[derive(Clone, Copy, Debug, PartialEq, Eq)]
pub enum End {
    Front,
    Back,
}

impl End {
    pub fn other(self) -> End {
        match self {
            End::Front => End::Back,
            End::Back => End::Front,
        }
    }
}

/// Room for values without pointers or padding: T is one of Rust's unsigned numbers.
pub struct Guarded<T> {
    pages: *mut u8,
    page: usize,
    /// Of the part between the two guards.
    bytes: usize,
    of: PhantomData<T>,
}

impl<T: Copy> Guarded<T> {
    /// Room for at least so many values.
    pub fn new(least: usize) -> Guarded<T> {
        // SAFETY: asks for a number.
        let page = usize::try_from(unsafe { sysconf(PAGE_SIZE) }).expect("pages have a size");
        let wanted = least.max(1) * std::mem::size_of::<T>();
        let bytes = (wanted + page - 1) / page * page;
        // SAFETY: new pages, at an address of the system's choice.
        let pages = unsafe {
            mmap(std::ptr::null_mut(), bytes + 2 * page, NO_ACCESS, PRIVATE_AND_ANONYMOUS, -1, 0)
        } as *mut u8;
        assert!(pages as isize != -1, "no memory");
        // SAFETY: these lie inside the pages that were just mapped.
        let opened = unsafe { mprotect(pages.add(page).cast(), bytes, READ_AND_WRITE) };
        assert_eq!(opened, 0, "no access");
        Guarded { pages, page, bytes, of: PhantomData }
    }

    fn room(&self) -> usize {
        self.bytes / std::mem::size_of::<T>()
    }

    /// All between the two guards.
    pub fn whole(&mut self) -> &mut [T] {
        // SAFETY: mapped, aligned to a page, zeros or what was written since, and borrowed with self; any bytes are a T.
        unsafe { std::slice::from_raw_parts_mut(self.pages.add(self.page).cast(), self.room()) }
    }

    /// Where so many values lie that touch the guard at this end.
    pub fn place(&self, count: usize, end: End) -> Range<usize> {
        match end {
            End::Front => 0..count,
            End::Back => self.room() - count..self.room(),
        }
    }

    /// So many values that touch the guard at this end, as they are.
    pub fn lend(&mut self, count: usize, end: End) -> &mut [T] {
        let place = self.place(count, end);
        &mut self.whole()[place]
    }

    /// These values, touching the guard at this end. Makes more room where there is too little.
    pub fn lend_copy(&mut self, values: &[T], end: End) -> &mut [T] {
        if values.len() > self.room() {
            *self = Guarded::new(values.len());
        }
        let lent = self.lend(values.len(), end);
        lent.copy_from_slice(values);
        lent
    }
}

impl<T> Drop for Guarded<T> {
    fn drop(&mut self) {
        // SAFETY: exactly what `new` mapped; nothing borrows it any more.
        unsafe { munmap(self.pages.cast(), self.bytes + 2 * self.page) };
    }
}

#[cfg(test)]
mod tests {
    use super::*;
    use std::os::unix::process::ExitStatusExt;
    use std::process::Command;

    #[test]
    fn what_is_lent_touches_a_guard() {
        let mut memory: Guarded<u16> = Guarded::new(10);
        let first = memory.lend(3, End::Front).as_ptr() as usize;
        let last = memory.lend_copy(&[1, 2, 3], End::Back).as_ptr_range().end as usize;
        assert_eq!((first % memory.page, last % memory.page), (0, 0));
        assert_eq!(last - first, memory.bytes);
        assert_eq!(memory.lend_copy(&vec![7; 100_000], End::Back).len(), 100_000);
    }

    /// Touches the byte next to what is lent: run by the test below, alone.
    fn touch_beyond(end: End) {
        let mut memory: Guarded<u8> = Guarded::new(10);
        let lent = memory.lend(10, end);
        let beyond = match end {
            End::Front => lent.as_ptr().wrapping_sub(1),
            End::Back => lent.as_ptr_range().end,
        };
        // SAFETY: none; this must end the run.
        watched(&|| "the case".to_string(), || unsafe { beyond.read_volatile() });
    }

    #[test]
    #[ignore = "it ends the run"]
    fn touches_front() {
        touch_beyond(End::Front);
    }

    #[test]
    #[ignore = "it ends the run"]
    fn touches_back() {
        touch_beyond(End::Back);
    }

    #[test]
    fn a_touch_beyond_ends_the_run() {
        for name in ["touches_front", "touches_back"] {
            let run = Command::new(std::env::current_exe().expect("this program"))
                .args(["--ignored", "--exact", &format!("guard::tests::{name}")])
                .output()
                .expect("a run of this program");
            assert_eq!(run.status.signal(), Some(SEGMENT_FAULT), "{name}: {run:?}");
            assert!(String::from_utf8_lossy(&run.stderr).ends_with("\nthe case\n"), "{run:?}");
        }
    }
}
