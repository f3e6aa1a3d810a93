//! Stand-in for stdx: the two macros that edit_algo.rs uses.

/// Appends formatted text to a string.
#[macro_export]
macro_rules! format_to {
    ($buffer:expr, $($arg:tt)*) => {{
        use ::std::fmt::Write as _;
        let _ = ::std::write!($buffer, $($arg)*);
    }};
}

/// With debug assertions off the original logs a false condition and goes on; here nothing is logged.
#[macro_export]
macro_rules! always {
    ($condition:expr, $($arg:tt)*) => {{
        let _ = ::std::format!($($arg)*);
        $condition
    }};
}
