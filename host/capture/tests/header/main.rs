//! What include/logic_core.h promises and asks, beside the answers themselves.

mod across;
mod calls;
mod given;
mod lists;
mod modes;
mod numbers;
mod pages;
#[path = "../plain/mod.rs"]
mod plain;
mod refused;
mod rows;
