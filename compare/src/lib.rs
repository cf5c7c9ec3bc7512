//! An implementation of document 01 and of the requests, which shares no code with the proved library; the texts that the
//! programs print; and random grammars and inputs.

pub mod cards;
#[cfg(test)]
mod meaning;
pub mod text;
pub mod twin;
