//! The stack that a call takes: it runs in a thread whose stack is memory of the host, painted before, and the deepest
//! byte that is no longer as it was painted is looked for.

use std::ffi::c_void;
use std::ptr::null_mut;

/// The bytes of the painted stack; where a call could not be made on it, it is said to have taken them all.
pub const SIZE: usize = 1 << 19;
/// What the stack is painted with; a byte that happens to be written with the one is seen with the other.
const PAINTS: [u8; 2] = [0xA5, 0x5A];

/// Attributes of a thread, with more room than any C library needs.
#[repr(C, align(16))]
struct Attributes([u8; 256]);

/// Memory that is aligned as a stack must be.
#[repr(C, align(4096))]
#[derive(Clone, Copy)]
struct Page([u8; 4096]);

/// What a thread runs.
type Start = extern "C" fn(*mut c_void) -> *mut c_void;

extern "C" {
    fn pthread_attr_init(attributes: *mut Attributes) -> i32;
    fn pthread_attr_setstack(attributes: *mut Attributes, low: *mut c_void, size: usize) -> i32;
    fn pthread_attr_destroy(attributes: *mut Attributes) -> i32;
    fn pthread_create(
        thread: *mut usize,
        attributes: *const Attributes,
        start: Start,
        with: *mut c_void,
    ) -> i32;
    fn pthread_join(thread: usize, result: *mut *mut c_void) -> i32;
}

/// A call to be made on a painted stack, and what came of it.
struct Painted<'a> {
    call: &'a mut dyn FnMut(),
    /// The lowest byte of the stack.
    low: *const u8,
    paint: u8,
    /// The bytes that the call took.
    taken: usize,
}

/// The first byte from `low` on that is no longer as it was painted.
#[inline(never)]
fn touched(low: *const u8, paint: u8) -> *const u8 {
    let mut at = low;
    // It ends in the frames of the callers, at the latest.
    unsafe {
        while at.read_volatile() == paint {
            at = at.add(1);
        }
    }
    at
}

/// Makes the call that is pointed to, and looks at the stack at once: what ends a thread may go deeper than the call.
extern "C" fn start(painted: *mut c_void) -> *mut c_void {
    // `run` lends it until the thread has ended.
    let painted = unsafe { &mut *painted.cast::<Painted>() };
    let here = 0u8;
    let top = &raw const here as usize;
    (painted.call)();
    let deepest = touched(painted.low, painted.paint) as usize;
    painted.taken = top.saturating_sub(deepest);
    null_mut()
}

/// Runs `start` in a thread with this stack, to its end. Did it run?
fn run(stack: &mut [Page], painted: &mut Painted) -> bool {
    let mut attributes = Attributes([0; 256]);
    let mut thread = 0;
    let lent = (&raw mut *painted).cast();
    unsafe {
        let made = pthread_attr_init(&mut attributes) == 0
            && pthread_attr_setstack(&mut attributes, stack.as_mut_ptr().cast(), SIZE) == 0
            && pthread_create(&mut thread, &attributes, start, lent) == 0;
        pthread_attr_destroy(&mut attributes);
        made && pthread_join(thread, null_mut()) == 0
    }
}

/// The bytes of a stack with this paint that a call takes.
fn taken(call: &mut dyn FnMut(), paint: u8) -> usize {
    let mut stack = vec![Page([paint; 4096]); SIZE / 4096];
    let mut painted = Painted {
        call,
        low: stack.as_ptr().cast(),
        paint,
        taken: SIZE,
    };
    match run(&mut stack, &mut painted) {
        true => painted.taken,
        false => SIZE,
    }
}

/// The bytes of stack that a call takes.
pub fn depth(call: &mut dyn FnMut()) -> usize {
    let [one, other] = PAINTS.map(|paint| taken(call, paint));
    one.max(other)
}
