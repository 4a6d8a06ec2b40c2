//! What the programs share that calls no library: the mode and CMAC written a second time, the tables of answers,
//! inputs, and what runs a program on a script and reads its lines.

#![allow(dead_code)] // no program uses all of it

#[path = "../reference/cmac.rs"]
pub mod cmac;
pub mod expected;
pub mod inputs;
pub mod marks;
#[path = "../reference/mode/mod.rs"]
#[allow(unused_imports)]
pub mod mode;
pub mod programs;
pub mod random;
pub mod scripts;
pub mod seed;
