//! Stand-in for `log`: the arguments are looked at by the compiler, and nothing is written.

#[macro_export]
macro_rules! info {
    ($($arg:tt)*) => {
        if false {
            let _ = format_args!($($arg)*);
        }
    };
}

pub use info as debug;
pub use info as warn;
