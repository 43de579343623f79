//! Stack for the calls that need much of it.

/// A cue text of up to this many bytes is read on the caller's own stack; a longer one takes some 7 MB of stack and is read on a thread that
/// has them.
pub const LONG_TEXT: usize = 786_432;

/// What a thread for a long text is given; memory that it does not touch is not taken.
const LONG_STACK: usize = 16 << 20;

/// Calls on this thread where the text is short, else on one with stack enough. Where no thread can be had, memory has run out, and that ends
/// in a panic, as it does elsewhere in Rust.
pub(crate) fn sufficient_for<T: Send>(length: usize, call: impl FnOnce() -> T + Send) -> T {
    if length <= LONG_TEXT {
        return call();
    }
    std::thread::scope(|scope| {
        let thread = std::thread::Builder::new().stack_size(LONG_STACK).spawn_scoped(scope, call).expect("a thread for a long cue text");
        thread.join().unwrap_or_else(|panic| std::panic::resume_unwind(panic))
    })
}
