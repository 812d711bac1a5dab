//! Stands in for the crate `log`: the same macros, which say nothing. No answer of the Rust depends on
//! what it logs.

#[macro_export]
macro_rules! error {
    ($($words:tt)*) => {{}};
}
#[macro_export]
macro_rules! warn {
    ($($words:tt)*) => {{}};
}
#[macro_export]
macro_rules! info {
    ($($words:tt)*) => {{}};
}
#[macro_export]
macro_rules! trace {
    ($($words:tt)*) => {{}};
}
