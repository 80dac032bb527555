//! The Rust in a child process, for calls that it never returns from.
use crate::{
    calls::{theirs, Call},
    image::Image,
};

extern "C" {
    fn fork() -> i32;
    fn waitpid(pid: i32, status: *mut i32, options: i32) -> i32;
    fn alarm(seconds: u32) -> u32;
    fn close(fd: i32) -> i32;
    fn _exit(code: i32) -> !;
}

/// Whether the Rust returns from the call. A child that is killed (its stack overflows, or a second is over) did not.
pub fn returns(call: &Call, image: &Image) -> bool {
    // SAFETY: the process has one thread; the child runs the call and ends.
    unsafe {
        let pid = fork();
        assert!(pid >= 0, "no child process");
        if pid == 0 {
            close(2);
            alarm(1);
            theirs(call, &mut image.clone());
            _exit(0);
        }
        let mut status = 0;
        assert!(waitpid(pid, &mut status, 0) == pid, "the child is lost");
        status & 0x7f == 0
    }
}
