//! Stands in for the crate `log`: the messages are checked by the compiler and dropped.

#[macro_export]
macro_rules! warn {
    (target: $target:expr, $($message:tt)+) => {{
        let _ = ($target, ::core::format_args!($($message)+));
    }};
}

#[macro_export]
macro_rules! trace {
    (target: $target:expr, $($message:tt)+) => {{
        let _ = ($target, ::core::format_args!($($message)+));
    }};
}
