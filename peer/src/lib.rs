//! The rules of `docs/` a second time: written from those pages alone, apart from the engine under `crates/`, so that the
//! two can be compared on many tapes. Nothing here is proved.

pub mod arithmetic;
pub mod bus;
pub mod exchange;
pub mod processor;
pub mod tape;
