//! An independent model of grant sheets, references and adapters, and of marks
//! held against a door counter, written from the papers (01, 02) and their
//! readings alone. Clear before fast. Comments cite the rules of docs/SPEC.md by
//! letter and number.
//!
//! A module imports only modules that stand above it here. (Blank lines keep
//! rustfmt from sorting them.)

// ---- the model

// refusals
pub mod refusal;

// T
pub mod table;

// S, W
pub mod sheet;

// R
pub mod relations;

// D
pub mod restriction;

// Q
pub mod state;

pub mod requests;

pub mod model;

// X
pub mod crossing;

// C8 to C17, A7 to A10
pub mod carrying;

// N, M, C, A
pub mod serving;

// L
pub mod chains;

pub mod book;

pub mod transcript;

// P
pub mod script;

pub mod pairs;

pub mod tiny;

// V, P27 to P29
pub mod matching;

pub mod doors;

// B
pub mod raw;

// H
pub mod check;

// E
pub mod entry;

// ---- what makes inputs for it, and looks at what they meet

pub mod demand;

pub mod dump;

pub mod random;

pub mod damage;

pub mod generators;

pub mod hostile;

pub mod situations;

pub mod coverage;

pub mod report;

pub mod shrink;

pub mod external;
