//! What the generator must answer, computed slowly from the definition:
//! canonical LR(1) sets merged by core, and beside them a second way
//! (LR(0) sets with lookaheads spread to a fixed point). No relations of
//! nonterminal transitions are used here: the generator works with those.
//!
//! The membership tests (`earley`, `spans`, and of derivations that use a production `uses`
//! and `listing`) know nothing of LR, `pages` nothing of how a table is made, and `merge` and
//! `sample` nothing of tables.

#![allow(clippy::needless_range_loop, clippy::collapsible_match)]

pub mod answer;
pub mod automaton;
pub mod card;
pub mod derivation;
pub mod earley;
pub mod grammar;
mod hash;
pub mod items;
pub mod listing;
pub mod lr0;
pub mod lr1;
pub mod merge;
pub mod pages;
pub mod parser;
pub mod program;
pub mod random;
pub mod sample;
pub mod shortest;
pub mod spans;
pub mod uses;
