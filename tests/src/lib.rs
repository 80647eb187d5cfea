//! A separately written brute search for verdicts on tram networks, and the
//! parts that the tests share. Written from the statement of scope and the
//! requests after it alone.

pub mod archive;
pub mod case;
pub mod checks;
pub mod damage;
pub mod enumeration;
pub mod exact;
pub mod faults;
pub mod longest;
pub mod mersenne;
pub mod random;
pub mod rings;
pub mod selections;
pub mod solver;
pub mod text;
