//! The original's files, built unchanged, with stand-ins for what they lean on and is not there. The error type carries
//! data; every other stand-in aborts, so that reaching it is seen.
#![allow(dead_code, unused)]

pub mod error;

include!(concat!(env!("OUT_DIR"), "/top.rs"));

pub mod functions {
    include!(concat!(env!("OUT_DIR"), "/functions.rs"));
    pub mod linear;
    pub mod measures;
    pub mod predicates;
}

/// Ends the process: the comparison has left what the original's files can say by themselves.
pub fn reached(name: &str) -> ! {
    eprintln!("compare: the original reached {name}, which is a stand-in");
    std::process::abort()
}
