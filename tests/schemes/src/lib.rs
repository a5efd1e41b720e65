//! The static library's subdivision calls beside the Rust: what is handed over and lent, what document 01 says of it, and meshes drawn at random.
pub mod draw;
pub mod expect;
pub mod library;
pub mod mesh;
