//! A stand-in: one branch, with no else.
#[macro_export]
macro_rules! cfg_if { (if #[$m:meta] { $($t:tt)* }) => { #[$m] { $($t)* } }; }
