//! An independent reference for document 01: the tree rules, the pool word by word, the soundness check,
//! the records and what each entry answers. It is transcribed from the document and shares nothing with
//! the crate `meminterval` nor with the proved code. It is written to be read, and no words or bytes make it panic.

pub mod entry;
pub mod pool;
pub mod range;
pub mod record;
pub mod sound;
pub mod tree;
pub mod walk;

pub use pool::Pool;
pub use range::{Range, Span};
pub use record::{Ask, Edit};
pub use sound::held;
