//! What ff_state.rs needs for tracing, which is off.

pub const TARGET: &str = "state_trace";

pub fn enabled() -> bool {
    false
}
