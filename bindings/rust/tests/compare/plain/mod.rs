//! Document 01 and the requests (i) to (vi) of document 02 once more, in plain Rust and from their text alone: nothing here calls the library. The tests hold
//! the library to it, and the benchmark times against it. (01 says shelf for the cache, kept block for an entry, plain machine for the reference model.)
pub mod block;
pub mod calls;
pub mod embedding;
pub mod model;
pub mod motifs;
pub mod rows;
pub mod strand;
pub mod table;
pub mod windows;
