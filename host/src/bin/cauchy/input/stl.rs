//! STL, as text and in bytes. Its triangles have no vertices in common, so corners are joined to vertices.
mod binary;
mod joining;
mod text;

pub use binary::{TWO_PARTS, read as read_binary, size as binary_size};
pub use text::{is_keyword, read as read_text};
