//! The plain witness: the bench's rules (paper 01) as an ordinary Rust program.
//!
//! The paper's words are kept: a *sheet* is the lent run of notice words, the
//! *memory* is the lent mailbox memory, a *no* is a refused call.

pub mod arbitration;
pub mod bench;
pub mod compare;
pub mod config;
pub mod draft;
pub mod error_state;
pub mod events;
pub mod filter;
pub mod hostile;
pub mod identifier;
pub mod length;
pub mod limits;
pub mod lines;
pub mod mailbox;
pub mod mode;
pub mod night;
pub mod nights;
pub mod notice;
pub mod outcome;
pub mod polls;
pub mod pool;
pub mod rounds;
pub mod script;
pub mod services;
pub mod state;
pub mod version;
pub mod words;
pub mod writer;
