//! Memory that is seen after every write to it.
//!
//! It stands write-protected while a call is made. A write faults; the fault's handler allows writing and sets the trap flag,
//! so that the one instruction is made and traps; the trap's handler takes the memory as it then stands, and protects it
//! again. So what is seen are the writes of the compiled code, in the order in which it makes them. The trap flag is
//! x86-64's: on other machines nothing is seen.

/// Whether writes are seen on this machine.
pub const SEEN: bool = cfg!(all(target_arch = "x86_64", target_os = "linux"));

#[cfg(all(target_arch = "x86_64", target_os = "linux"))]
pub use seen::Watched;

#[cfg(not(all(target_arch = "x86_64", target_os = "linux")))]
pub use unseen::Watched;

#[cfg(not(all(target_arch = "x86_64", target_os = "linux")))]
mod unseen {
    /// Memory that nothing is seen of.
    pub struct Watched;

    impl Watched {
        pub fn new(_bytes: usize, _writes: usize) -> Watched {
            Watched
        }

        /// Makes a call on a copy of the image; answers what it answered, and nothing of its writes.
        pub fn watch<T>(&mut self, image: &[u8], made: impl FnOnce(&mut [u8]) -> T) -> (T, Vec<&[u8]>) {
            (made(&mut image.to_vec()), Vec::new())
        }
    }
}

#[cfg(all(target_arch = "x86_64", target_os = "linux"))]
mod seen {
    use std::ffi::{c_int, c_void};
    use std::io::Error;
    use std::mem;
    use std::ptr;
    use std::slice;
    use std::sync::Mutex;
    use std::sync::atomic::{AtomicPtr, Ordering};

    use crate::memory::{Guarded, Side};

    unsafe extern "C" {
        fn mprotect(at: *mut c_void, bytes: usize, protection: c_int) -> c_int;
        fn sigaction(signal: c_int, action: *const Action, before: *mut Action) -> c_int;
    }

    // As Linux numbers them on x86-64.
    const READ: c_int = 1;
    const READ_WRITE: c_int = 3;
    const FAULT: c_int = 11;
    const TRAP: c_int = 5;
    const WITH_CONTEXT: c_int = 4;
    const TRAP_FLAG: u64 = 0x100;

    #[repr(C)]
    struct Action {
        handler: usize,
        mask: [u64; 16],
        flags: c_int,
        restorer: usize,
    }

    /// The beginning of what a handler is told of its signal.
    #[repr(C)]
    struct Info {
        numbers: [c_int; 4],
        address: usize,
    }

    /// The beginning of a thread's context: five words, then its registers, of which the eighteenth has the flags.
    #[repr(C)]
    struct Context {
        before: [u64; 5],
        registers: [u64; 17],
        flags: u64,
    }

    /// What is being watched, and what was seen of it: copies, one after the other.
    struct Watch {
        start: *mut u8,
        room: usize,
        bytes: usize,
        seen: *mut u8,
        most: usize,
        count: usize,
    }

    /// There is one watch at a time, and handlers are the process's.
    static ONE: Mutex<()> = Mutex::new(());
    static WATCH: AtomicPtr<Watch> = AtomicPtr::new(ptr::null_mut());

    extern "C" fn faulted(_: c_int, info: *const Info, context: *mut Context) {
        // SAFETY: the kernel lends both, and the watch lives as long as it is named.
        unsafe {
            let watch = WATCH.load(Ordering::SeqCst);
            let ours = !watch.is_null()
                && ((*watch).start as usize..(*watch).start as usize + (*watch).room).contains(&(*info).address);
            if !ours {
                // A fault of another kind: once this handler is gone it ends the process as it would have.
                let default = Action { handler: 0, mask: [0; 16], flags: 0, restorer: 0 };
                sigaction(FAULT, &default, ptr::null_mut());
                return;
            }
            mprotect((*watch).start.cast(), (*watch).room, READ_WRITE);
            (*context).flags |= TRAP_FLAG;
        }
    }

    extern "C" fn trapped(_: c_int, _: *const Info, context: *mut Context) {
        // SAFETY: as above; the copy is made only where there is room for it.
        unsafe {
            (*context).flags &= !TRAP_FLAG;
            let watch = WATCH.load(Ordering::SeqCst);
            if watch.is_null() {
                return;
            }
            if (*watch).count < (*watch).most {
                let to = (*watch).seen.add((*watch).count * (*watch).bytes);
                ptr::copy_nonoverlapping((*watch).start, to, (*watch).bytes);
            }
            (*watch).count += 1;
            mprotect((*watch).start.cast(), (*watch).room, READ);
        }
    }

    fn handle(signal: c_int, handler: extern "C" fn(c_int, *const Info, *mut Context)) -> Action {
        let action = Action { handler: handler as usize, mask: [0; 16], flags: WITH_CONTEXT, restorer: 0 };
        // SAFETY: an action is all numbers, and the handler is of the form that the flag asks for.
        unsafe {
            let mut before = mem::zeroed();
            assert_eq!(sigaction(signal, &action, &mut before), 0, "{}", Error::last_os_error());
            before
        }
    }

    /// Memory that a call can be watched on.
    pub struct Watched {
        memory: Guarded,
        seen: Vec<u8>,
    }

    impl Watched {
        /// For images of at most so many bytes and calls of at most so many writes.
        pub fn new(bytes: usize, writes: usize) -> Watched {
            Watched { memory: Guarded::new(bytes), seen: vec![0; bytes * writes] }
        }

        /// Makes a call on a copy of the image; answers what it answered, and the image after each of its writes.
        pub fn watch<T>(&mut self, image: &[u8], made: impl FnOnce(&mut [u8]) -> T) -> (T, Vec<&[u8]>) {
            let one = ONE.lock();
            let bytes = image.len();
            let copy = self.memory.copy_of(image, Side::Front);
            let mut watch = Watch {
                start: copy.as_mut_ptr(),
                room: bytes.next_multiple_of(4_096),
                bytes,
                seen: self.seen.as_mut_ptr(),
                most: self.seen.len() / bytes.max(1),
                count: 0,
            };
            let before = [handle(FAULT, faulted), handle(TRAP, trapped)];
            WATCH.store(&mut watch, Ordering::SeqCst);
            // SAFETY: the memory's own pages.
            let protect = |protection| unsafe { mprotect(watch.start.cast(), watch.room, protection) };
            assert_eq!(protect(READ), 0, "{}", Error::last_os_error());
            let answer = made(copy);
            assert_eq!(protect(READ_WRITE), 0, "{}", Error::last_os_error());
            WATCH.store(ptr::null_mut(), Ordering::SeqCst);
            for (signal, action) in [FAULT, TRAP].iter().zip(&before) {
                // SAFETY: the actions that stood before.
                unsafe { sigaction(*signal, action, ptr::null_mut()) };
            }
            drop(one);
            // SAFETY: the handlers wrote it behind the compiler's back, while nothing else held it.
            let count = unsafe { ptr::read_volatile(&raw const watch.count) };
            assert!(count <= watch.most, "{count} writes, and room to see {}", watch.most);
            // SAFETY: so many copies stand there.
            let seen = unsafe { slice::from_raw_parts(self.seen.as_ptr(), count * bytes) };
            (answer, seen.chunks(bytes.max(1)).collect())
        }
    }
}
