//! The registry's calls as safe functions, and the server over them.
pub mod core;
pub mod frames;
pub mod groups;
pub mod layout;
pub mod previews;
pub mod random;
pub mod server;
