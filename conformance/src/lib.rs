//! The proved station through its C boundary, a plain model of paper 01 to hold it against, rings
//! of proved stations, and a model of the program `settle`.

pub mod both;
pub mod boundary;
pub mod call;
pub mod choices;
pub mod coverage;
pub mod engine;
pub mod frames;
pub mod model;
pub mod names;
pub mod random;
pub mod ring;
pub mod settling;
