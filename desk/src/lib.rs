//! The program `desk`: sheets and scripts as people at a desk read them. Whatever is accepted, refused, related or offered is so by the core's word
//! (crate `pilgonca`); what is here finds words and draws pictures.

pub mod args;
pub mod commands;
mod described;
pub mod diagnosis;
#[cfg(feature = "visits")]
mod diff;
mod documents;
mod doors;
mod due;
mod explain;
mod fix;
mod input;
mod json;
mod line;
mod matrix;
pub mod names;
pub mod paint;
mod pairs_picture;
#[cfg(feature = "visits")]
mod powers;
mod problem;
#[cfg(feature = "visits")]
pub mod reach;
mod reader;
pub mod reasons;
pub mod relation;
#[cfg(not(feature = "visits"))]
#[path = "no_scripts.rs"]
mod scripts;
#[cfg(feature = "visits")]
pub mod scripts;
mod shown;
mod spoilt;
mod summary;
mod svg;
mod tiny;
mod words;

pub use words::called;
