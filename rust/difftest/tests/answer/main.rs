//! The program `answer`.

mod age;
mod lines;
mod program;
