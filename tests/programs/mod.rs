// The five programs, each of which asks the library or roomrun and holds the answers against the models.
pub mod open;
pub mod response;
pub mod script;
pub mod store;
pub mod traffic;
