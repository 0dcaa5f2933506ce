//! Runs timetable rules with the proved Knitcauldron engine, over its C boundary.
//!
//! A rule comes as a program image in bytes. [`validate`] says whether its program keeps to a [`Profile`]; [`execute`] runs it
//! within [`Limits`], in a [`Room`] that the caller lends; [`event_id`] names a calendar event by a lesson and the digest of a
//! run. Nothing is allocated, nothing has to be started first and nothing is kept between calls, which may run in parallel. The
//! crate needs no standard library.
//!
//! ```
//! use knitcauldron::{enough_room, event_id, execute, validate, Limits, Needed, Profile, Room, Status, Value};
//!
//! // Two instructions: load -1, return it.
//! let image = [
//!     0x01, 0x00, 0x00, 0x00, 0x01, 0x00, 0x00, 0x00, 0x02, 0x00, 0x00, 0x00, 0x18, 0x00, 0x00, 0x00,
//!     0x28, 0x00, 0x00, 0x00, 0x40, 0x00, 0x00, 0x00, 0x07, 0x00, 0x00, 0x00, 0x01, 0x00, 0x00, 0x00,
//!     0x00, 0x00, 0x00, 0x00, 0x02, 0x00, 0x00, 0x00, 0x06, 0x00, 0x00, 0x00, 0x00, 0x00, 0x00, 0x00,
//!     0xff, 0xff, 0xff, 0xff, 0x37, 0x00, 0x00, 0x00, 0x00, 0x00, 0x00, 0x00, 0x00, 0x00, 0x00, 0x00,
//! ];
//! const NEEDED: Needed = enough_room(Limits::DEFAULT.max_call_depth, Profile::SAFE.max_registers);
//! let (mut frames, mut registers) = ([0; NEEDED.frame_words], [0; NEEDED.register_words]);
//! let mut room = Room { frame_words: &mut frames, register_words: &mut registers };
//!
//! validate(&image, &Profile::SAFE)?;
//! let run = execute(&image, Limits::DEFAULT, &mut room)?;
//! assert_eq!((run.status, run.value, run.fuel_used), (Status::Returned, Value::I32(-1), 2));
//! assert_eq!(event_id(42, run.digest).as_str(), "0000002a-6ffa4144d88d4a53");
//! # Ok::<(), knitcauldron::Refusal>(())
//! ```
//!
//! # Linking
//!
//! The engine is the static archive `libcapi.a`. When this crate is built, the variable `KNIT_ARCHIVE` must name the folder that
//! holds it, by an absolute path.
//!
//! # Answers that cannot be
//!
//! The engine is proved to give only the answers that its header lists. Should one come that is not listed, another archive than
//! the engine's was linked, and nothing it says can be trusted: the call panics and says so. No input makes the engine do that.

#![no_std]
#![deny(missing_docs, unsafe_code)]

mod answer;
mod engine;
mod event_id;
mod profile;
mod refusal;
mod room;
mod run;
mod value;

pub use event_id::{event_id, event_id_in, EventId, EVENT_ID_BYTES};
pub use profile::{validate, LimitFault, Profile, ProfileLimit};
pub use refusal::Refusal;
pub use room::{enough_room, Frame, Frames, Needed, Room, FRAME_WORDS};
pub use run::{digest, execute, Limits, Run, Status, Trap};
pub use value::{Fx, Quad, Value};

/// The code in the page about the bindings is tested with that of this crate.
#[cfg(doctest)]
#[doc = include_str!("../../README.md")]
struct Readme;
