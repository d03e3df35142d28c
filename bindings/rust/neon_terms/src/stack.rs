//! Calls that need more stack than every thread has.
use std::cell::Cell;
use std::thread;

/// Bytes kept free for Rust and the system.
const SPARE: usize = 8 << 10;

/// Makes a call that takes `bytes` of stack: in place if this thread has them, else on a new thread.
pub fn with<T: Send>(bytes: usize, call: impl FnOnce() -> T + Send) -> T {
    if left().is_some_and(|left| bytes.saturating_add(SPARE) <= left) {
        return call();
    }
    thread::scope(|scope| {
        let thread = thread::Builder::new().stack_size(bytes + (64 << 10)).spawn_scoped(scope, call).expect("a thread can be started");
        thread.join().expect("a call of the library ends")
    })
}

/// Unused bytes of this thread's stack, if the system reports them.
fn left() -> Option<usize> {
    thread_local! {
        static BOTTOM: Cell<Option<Option<usize>>> = const { Cell::new(None) };
    }
    let here = 0u8;
    let bottom = BOTTOM.get().unwrap_or_else(|| {
        let bottom = bottom();
        BOTTOM.set(Some(bottom));
        bottom
    });
    (&raw const here).addr().checked_sub(bottom?)
}

/// The lowest address of this thread's stack.
#[cfg(target_os = "linux")]
fn bottom() -> Option<usize> {
    /// Larger than `pthread_attr_t` of glibc and of musl, 56 bytes.
    type Attributes = [u64; 16];
    unsafe extern "C" {
        safe fn pthread_self() -> usize;
        fn pthread_getattr_np(thread: usize, attributes: *mut Attributes) -> i32;
        fn pthread_attr_getstack(attributes: *const Attributes, bottom: *mut usize, size: *mut usize) -> i32;
        fn pthread_attr_destroy(attributes: *mut Attributes) -> i32;
    }
    let (mut attributes, mut bottom, mut size) = ([0; 16], 0, 0);
    let told = unsafe {
        if pthread_getattr_np(pthread_self(), &mut attributes) != 0 {
            return None;
        }
        let told = pthread_attr_getstack(&attributes, &mut bottom, &mut size);
        pthread_attr_destroy(&mut attributes);
        told
    };
    // the stack of the first thread grows, and may be limited to less than the system says
    (told == 0 && size <= 64 << 20).then_some(bottom)
}

#[cfg(not(target_os = "linux"))]
fn bottom() -> Option<usize> {
    None
}

#[cfg(test)]
mod tests {
    use super::*;

    /// In a process that runs nothing else: glibc gives a thread the stack of one that has ended, of up to four times the size.
    #[test]
    fn what_is_left_is_at_most_the_stack() {
        const ALONE: &str = "NEON_STACK_TEST_ALONE";
        if std::env::var_os(ALONE).is_none() {
            let test = ["--exact", "stack::tests::what_is_left_is_at_most_the_stack", "--test-threads", "2"];
            let alone = std::process::Command::new(std::env::current_exe().unwrap()).args(test).env(ALONE, "1").output().unwrap();
            assert!(alone.status.success() && String::from_utf8_lossy(&alone.stdout).contains("1 passed"), "{alone:?}");
            return;
        }
        for size in [64 << 10, 1 << 20] {
            let thread = thread::Builder::new().stack_size(size).spawn(left).unwrap();
            if let Some(left) = thread.join().unwrap() {
                assert!(left <= size + (16 << 10) && left > size / 2, "{left} of {size}");
            }
        }
    }

    #[test]
    fn in_place_if_there_is_room() {
        let here = thread::current().id();
        assert_eq!(with(1, || thread::current().id()), here);
        assert_ne!(with(1 << 30, || thread::current().id()), here);
    }
}
