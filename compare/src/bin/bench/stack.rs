//! How much stack a call takes: it runs in a thread whose stack is painted first, and the paint is looked at after.

use std::ffi::c_void;
use std::ptr;

const STACK: usize = 4 << 20;
const PAINT: u64 = 0xA7A7_5B5B_A7A7_5B5B;

/// Room for a pthread_attr_t.
#[repr(C, align(16))]
struct Attributes([u8; 128]);

extern "C" {
    fn pthread_attr_init(attributes: *mut Attributes) -> i32;
    fn pthread_attr_setstack(attributes: *mut Attributes, stack: *mut c_void, size: usize) -> i32;
    fn pthread_attr_destroy(attributes: *mut Attributes) -> i32;
    fn pthread_create(
        thread: *mut usize,
        attributes: *const Attributes,
        start: extern "C" fn(*mut c_void) -> *mut c_void,
        argument: *mut c_void,
    ) -> i32;
    fn pthread_join(thread: usize, result: *mut *mut c_void) -> i32;
}

/// The bytes of stack that a call takes beyond those of an empty thread.
pub fn bytes_used(mut call: impl FnMut()) -> usize {
    touched(&mut call) - touched(&mut || {})
}

/// The bytes from the lowest one that lost its paint up to the stack's top.
fn touched(mut call: &mut dyn FnMut()) -> usize {
    let mut stack = vec![PAINT; STACK / 8 + 512];
    let skip = stack.as_ptr().align_offset(4096);
    let area = &mut stack[skip..skip + STACK / 8];
    unsafe {
        let mut attributes = Attributes([0; 128]);
        let mut thread = 0;
        assert_eq!(pthread_attr_init(&mut attributes), 0);
        assert_eq!(pthread_attr_setstack(&mut attributes, area.as_mut_ptr().cast(), STACK), 0);
        let argument: *mut &mut dyn FnMut() = &mut call;
        assert_eq!(pthread_create(&mut thread, &attributes, run, argument.cast()), 0);
        assert_eq!(pthread_join(thread, ptr::null_mut()), 0);
        pthread_attr_destroy(&mut attributes);
        let lowest = (0..area.len()).find(|&at| ptr::read_volatile(&area[at]) != PAINT);
        STACK - 8 * lowest.expect("a thread takes some stack")
    }
}

extern "C" fn run(argument: *mut c_void) -> *mut c_void {
    let call = unsafe { &mut *argument.cast::<&mut dyn FnMut()>() };
    call();
    ptr::null_mut()
}
