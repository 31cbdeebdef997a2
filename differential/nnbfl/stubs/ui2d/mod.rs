// Stub.
pub mod types;
