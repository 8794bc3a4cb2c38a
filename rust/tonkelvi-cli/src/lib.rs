//! Walks JPEG 2000 codestreams and reads every packet with the proved engine.
pub mod arguments;
pub mod boxes;
pub mod catalogue;
pub mod check;
pub mod files;
pub mod geometry;
pub mod jobs;
pub mod lengths;
pub mod markers;
pub mod message;
pub mod moves;
pub mod order;
pub mod rows;
pub mod walk;
