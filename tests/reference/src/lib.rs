//! Reference for the queue and feed engine, written from the scope paper and the requests alone.
//!
//! Plain and slow on purpose: a heap is a `Vec` of trees, a tree owns its children, an item is found
//! by searching. Store words appear only in `store`, where whole forests are written as words.

pub mod call;
pub mod ceiling;
pub mod feed;
pub mod ledger;
pub mod map;
pub mod program;
pub mod queue;
pub mod run;
pub mod store;
pub mod text;

pub use call::{Answer, Call};
pub use queue::{Position, Queues, Tree, HEAPS};
pub use store::NONE;
