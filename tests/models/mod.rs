// The models: document 01's rules once more and on their own, for the programs to compare with.
pub mod counters;
pub mod listing;
pub mod opening;
pub mod queues;
pub mod reader;
pub mod response;
pub mod room;
