//! Calls in threads of their own whose stack is looked at (`stack.c`).

use std::ffi::c_void;

/// What was used of a stack, in bytes: below the frame that made the call, and of the thread's in all.
#[derive(Clone, Copy, Default, PartialEq, Eq)]
pub struct Used {
    pub below_caller: usize,
    pub in_all: usize,
}

extern "C" {
    fn bench_stack_start(size: usize, call: extern "C" fn(*mut c_void), argument: *mut c_void) -> *mut c_void;
    fn bench_stack_used(stack: *const c_void, below_caller: *mut usize, in_all: *mut usize) -> i32;
    fn bench_stack_end(stack: *mut c_void, below_caller: *mut usize, in_all: *mut usize) -> i32;
}

type Call<'a> = &'a mut (dyn FnMut() + Send);

extern "C" fn make_call(argument: *mut c_void) {
    let call = unsafe { &mut *(argument as *mut Call) };
    call();
}

/// Makes a call in a thread with a stack of so many bytes and waits for its end; none if there is no such thread.
pub fn run(size: usize, mut call: Call) -> Option<Used> {
    let mut used = Used::default();
    let argument = &mut call as *mut Call as *mut c_void;
    let stack = unsafe { bench_stack_start(size, make_call, argument) };
    let has_ended = !stack.is_null() && unsafe { bench_stack_end(stack, &mut used.below_caller, &mut used.in_all) } == 0;
    has_ended.then_some(used)
}

/// A call that may never end. Nobody waits for it and nothing of it is given back: it is for a process that has nothing else to do.
pub struct Started {
    stack: *mut c_void,
}

impl Started {
    /// Starts a call in a thread with a stack of so many bytes; none if there is no such thread.
    pub fn new(size: usize, call: Box<dyn FnMut() + Send>) -> Option<Started> {
        let call: Call<'static> = Box::leak(call);
        let argument = Box::leak(Box::new(call)) as *mut Call as *mut c_void;
        let stack = unsafe { bench_stack_start(size, make_call, argument) };
        (!stack.is_null()).then_some(Started { stack })
    }

    /// What was used so far, and whether the call has ended.
    pub fn used(&self) -> (Used, bool) {
        let mut used = Used::default();
        let is_over = unsafe { bench_stack_used(self.stack, &mut used.below_caller, &mut used.in_all) } != 0;
        (used, is_over)
    }
}
