//! Stands in for drawing; no job reaches it.

pub struct AsciiOptions;
