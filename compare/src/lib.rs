//! What the comparison and the list of stored answers share: answers as plain numbers, the original's
//! answers, document 01's ranges and its tracer, images to trace, and one that looks like a game.

pub mod answer;
pub mod game;
pub mod images;
pub mod original;
pub mod paper;
pub mod random;
pub mod seen;
pub mod values;
