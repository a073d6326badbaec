//! How much stack a call touches: it runs on a thread whose stack is painted before and looked at afterwards.

use std::ffi::{c_int, c_ulong, c_void};

const SIZE: usize = 1 << 20;
const PAINT: u8 = 0xA5;

/// POSIX's `pthread_attr_t`, with room to spare.
#[repr(C, align(16))]
struct Attributes([u64; 16]);

extern "C" {
    fn pthread_attr_init(attributes: *mut Attributes) -> c_int;
    fn pthread_attr_setstack(attributes: *mut Attributes, stack: *mut c_void, size: usize) -> c_int;
    fn pthread_create(
        thread: *mut c_ulong,
        attributes: *const Attributes,
        start: extern "C" fn(*mut c_void) -> *mut c_void,
        task: *mut c_void,
    ) -> c_int;
    fn pthread_join(thread: c_ulong, result: *mut *mut c_void) -> c_int;
}

struct Task<'a> {
    call: &'a mut dyn FnMut(),
    /// The address of a local of the caller.
    top: usize,
}

extern "C" fn start(task: *mut c_void) -> *mut c_void {
    let task = unsafe { &mut *task.cast::<Task>() };
    let local = 0u8;
    task.top = std::hint::black_box(&local) as *const u8 as usize;
    (task.call)();
    std::ptr::null_mut()
}

/// The bytes of stack below the caller, down to the lowest that the call wrote.
pub fn touched(call: &mut dyn FnMut()) -> usize {
    let mut room = vec![PAINT; SIZE + 4096];
    let stack = room.as_mut_ptr().wrapping_add(room.as_ptr().align_offset(4096));
    let mut task = Task { call, top: 0 };
    unsafe {
        let mut attributes = Attributes([0; 16]);
        let mut thread = 0;
        assert_eq!(pthread_attr_init(&mut attributes), 0);
        assert_eq!(pthread_attr_setstack(&mut attributes, stack.cast(), SIZE), 0);
        assert_eq!(pthread_create(&mut thread, &attributes, start, (&raw mut task).cast()), 0);
        assert_eq!(pthread_join(thread, std::ptr::null_mut()), 0);
    }
    let offset = stack as usize - room.as_ptr() as usize;
    let lowest = room[offset..].iter().position(|&byte| byte != PAINT).unwrap();
    task.top - (stack as usize + lowest)
}
