//! An LC-3 of its own, to hold the library against.
//!
//! It is written from the text of the machine and from Appendix A of Patt and Patel, third
//! edition, and shares nothing with the library but the layouts of record and answer:
//!
//! - [`figure`] interprets Figure A.2, kept as text;
//! - [`bus`] keeps every register of a device as separate facts behind one trait;
//! - [`machine`] is a processor on that bus, which undoes a step that found the output full.
//!
//! Its second edition is written from Appendix A of that edition, documents 001 to 003.

// Each test program uses its own part of this module.
#![allow(dead_code)]

pub mod bus;
pub mod figure;
pub mod machine;
