//! Stands in for `mtld3d_shared`: document 01's cosine, the names of the Metal values that
//! convert.rs answers with, and logging that drops its messages.

pub mod mtl;
pub mod trig;

use mtl::VertexFormat;

pub struct VertexAttrDesc {
    pub attr_index: u32,
    pub buffer_index: u32,
    pub offset: u32,
    pub format: VertexFormat,
}

#[macro_export]
macro_rules! log_once_warn {
    (target: $target:expr, $($message:tt)+) => {{
        let _ = ($target, ::core::format_args!($($message)+));
    }};
}

#[macro_export]
macro_rules! log_once_warn_by {
    (target: $target:expr, key: $key:expr, $($message:tt)+) => {{
        let _: u64 = $key;
        let _ = ($target, ::core::format_args!($($message)+));
    }};
}
