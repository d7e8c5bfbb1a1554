//! Safe bindings to the proved library.
//!
//! [`reencode`], [`sizes`], [`walk_back`], [`carry_forward`] and [`read_back`] bring their own buffers; [`calls`] has
//! the same calls on slices that the caller lends. Plain code that is no part of the library: [`plan`] tests a plan,
//! [`drat`] checks a proof, [`location`] tells where in a text a fault is.

#![deny(missing_docs)]

pub mod buffers;
pub mod calls;
pub mod drat;
pub mod limits;
pub mod location;
pub mod plan;
pub mod refusals;
pub mod shown;

pub use buffers::{
    carry_forward, read_back, reencode, sizes, walk_back, CarryForwardRoom, Error, ReadBack,
    ReencodeRoom, Reencoded, WalkBackRoom,
};
pub use calls::{Arrangement, ChoiceRecord, Counts, Form, Settings, Tally};
pub use refusals::Refusal;
