//! How many bytes of stack a call uses: it runs on a thread whose stack is a list of known numbers, and afterwards the lowest place that
//! holds another number is looked for.

use std::ffi::c_void;
use std::hint::black_box;
use std::ptr::null_mut;

const WORDS: usize = 1 << 18; // 2 MiB
const PATTERN: u64 = 0xA5C3_96E1_5A3C_691E;

/// Room for a pthread_attr_t, which has 56 bytes here.
type Attributes = [u64; 16];

extern "C" {
    fn pthread_attr_init(attributes: *mut Attributes) -> i32;
    fn pthread_attr_setstack(attributes: *mut Attributes, lowest: *mut u64, bytes: usize) -> i32;
    fn pthread_attr_destroy(attributes: *mut Attributes) -> i32;
    fn pthread_create(
        thread: *mut usize,
        attributes: *const Attributes,
        start: extern "C" fn(*mut c_void) -> *mut c_void,
        argument: *mut c_void,
    ) -> i32;
    fn pthread_join(thread: usize, answer: *mut *mut c_void) -> i32;
}

/// A page of the system, to which a stack is aligned.
#[repr(C, align(4096))]
struct Page([u64; 512]);

extern "C" fn start(work: *mut c_void) -> *mut c_void {
    // The pointer is to the work of `touched`, which waits for the thread.
    let work = unsafe { &mut *(work as *mut &mut dyn FnMut()) };
    work();
    null_mut()
}

/// Bytes of a new thread's stack that are written while it works, its own start and the C library's part among them.
fn touched(mut work: &mut dyn FnMut()) -> usize {
    let mut pages: Vec<Page> = (0..WORDS / 512).map(|_| Page([PATTERN; 512])).collect();
    let lowest = pages.as_mut_ptr() as *mut u64;
    let (mut attributes, mut thread) = ([0; 16], 0);
    // The list lives until the thread has ended, and nothing else reads or writes it in between.
    unsafe {
        assert_eq!(pthread_attr_init(&mut attributes), 0);
        assert_eq!(pthread_attr_setstack(&mut attributes, lowest, 8 * WORDS), 0);
        let argument = &mut work as *mut &mut dyn FnMut() as *mut c_void;
        assert_eq!(pthread_create(&mut thread, &attributes, start, argument), 0);
        assert_eq!(pthread_join(thread, null_mut()), 0);
        assert_eq!(pthread_attr_destroy(&mut attributes), 0);
    }
    let untouched = pages
        .iter()
        .flat_map(|page| page.0)
        .take_while(|&word| word == PATTERN)
        .count();
    8 * (WORDS - untouched)
}

/// Bytes of stack that the work uses beyond a thread that does nothing.
pub fn used<T>(mut work: impl FnMut() -> T) -> usize {
    touched(&mut || {
        black_box(work());
    }) - touched(&mut || ())
}
