//! The proved library beside the reference model: the same questions put to both.

pub mod books;
pub mod journals;
pub mod plain;
pub mod programs;
pub mod proved;
pub mod rows;
pub mod states;
pub mod times;
pub mod windows;
