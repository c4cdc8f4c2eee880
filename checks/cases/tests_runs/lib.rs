//! Tests of followers over connections that drop and over a log that grows, and of what they acknowledge; and of a server whose reader
//! and writer fail.
#![tactic(auto)]

mod answers;
mod change_following;
mod change_rehearsing;
mod rehearsing;
mod samples;
mod semi_rehearsing;
mod serving;
