//! A second program for the page machine, written from the machine's paper
//! alone, to be compared with the verified one.

pub mod author;
pub mod coverage;
pub mod directed;
pub mod generate;
pub mod log;
pub mod machine;
pub mod operate;
pub mod script;
pub mod valid;

#[cfg(test)]
mod tests;
