//! Stands in for the crate of this name: what `warn!` says is kept, `debug!` and `trace!` are only type-checked.

use std::cell::RefCell;

thread_local! {
    static WARNINGS: RefCell<Vec<&'static str>> = const { RefCell::new(Vec::new()) };
}

#[cold]
pub fn keep(warning: &'static str) {
    WARNINGS.with_borrow_mut(|kept| kept.push(warning));
}

/// This thread's warnings since the last call.
pub fn warnings() -> Vec<&'static str> {
    WARNINGS.take()
}

#[macro_export]
macro_rules! warn {
    ($text:literal) => {
        $crate::keep($text)
    };
}

#[macro_export]
macro_rules! unheard {
    ($($argument:tt)*) => {
        if false {
            let _ = format_args!($($argument)*);
        }
    };
}

pub use unheard as debug;
pub use unheard as trace;
