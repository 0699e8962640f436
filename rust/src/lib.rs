//! Oberheim Matrix-1000 and Matrix-6R system exclusive dumps: reading, from memory or as they come in,
//! testing, editing and writing, and the edits that turn one patch into another; the operations that
//! configure units, and a model of a unit that is sent them.
//!
//! A safe face of a library that is proved. What a message is, which are refused and why, what a
//! field may hold and what a dump's bytes are is all decided there. Here only a value outside the range
//! that the library tells, and what cannot be put into its bytes, is refused, by the same numbers.
//!
//! ```
//! use matrix1000::{messages, Error, Message, Parameter, Patch};
//!
//! // A patch with a name and a brighter filter, as a dump.
//! let mut patch = Patch::default();
//! patch.set_name("BASS 1  ")?;
//! patch.set(Parameter::VCF_FREQUENCY, 96)?;
//! let dump = Message::Patch { number: 7, patch }.to_vec()?;
//!
//! // The same from a stream with other things in it.
//! let mut stream = vec![0x90, 0x40, 0x40];
//! stream.extend(&dump);
//! for found in messages(&stream) {
//!     match found.message {
//!         Ok(Message::Patch { number, patch }) => {
//!             assert_eq!((number, patch.name().as_str()), (7, "BASS 1  "));
//!         }
//!         Ok(other) => println!("a {}", other.kind()),
//!         Err(error) => println!("at {}: {error}", found.start),
//!     }
//! }
//!
//! // The fewest edits from one patch to another of the same name, ready to send.
//! let mut darker = patch;
//! darker.set(Parameter::VCF_FREQUENCY, 32)?;
//! let edits = patch.edits_to(&darker)?;
//! assert_eq!(edits.as_bytes(), [0xF0, 0x10, 0x06, 0x06, 21, 32, 0xF7]);
//! # Ok::<(), Error>(())
//! ```
//!
//! A [`Split`] of a Matrix-6R is read, changed and written as a patch is.
//!
//! A [`Request`] for data, group mode, set bank, unlock bank and store edit buffer are messages too, and
//! a [`Unit`] says what each of them does to it:
//!
//! ```
//! use matrix1000::{chain, to_vec, Error, Message, Target, Unit};
//!
//! // Three units, each of which sends to the next: one message numbers them.
//! let mut units = [Unit::default(); 3];
//! chain(&mut units, &Message::GroupMode { total: 3, id: 0 }.to_vec()?);
//! assert_eq!(units.map(|unit| unit.group), [Some(0), Some(1), Some(2)]);
//!
//! // A bank for the last one, and a store that is meant for it alone.
//! let to = Target::Unit(2);
//! units[2].receive(&to_vec([Message::SetBank(3), Message::UnlockBank])?);
//! assert_eq!(units[2].to_string(), "bank 3, not locked, unit 2 of a group");
//! assert_eq!(units.map(|unit| unit.is_meant_by(to)), [false, false, true]);
//! let store = Message::Store { number: 7, bank: 3, to };
//! assert_eq!(store.to_vec()?, [0xF0, 0x10, 0x06, 0x0E, 7, 3, 2, 0xF7]);
//! # Ok::<(), Error>(())
//! ```
//!
//! A [`Reader`] is fed what has arrived from a cable so far, and [`incoming`] finds the messages of
//! anything that is read. Of the two programs in `examples/`, `names` lists the names of the patches in
//! files, and `cable` what comes in on standard input, a line at the end of each message.

#![deny(missing_docs)]
#![deny(unsafe_code)]

mod bank;
mod cable;
mod edits;
mod error;
#[allow(unsafe_code)]
mod ffi;
mod format;
mod message;
mod operations;
mod parameter;
mod patch;
mod plan;
mod split;
mod stream;
mod unit;

pub use bank::Bank;
pub use cable::{incoming, Fed, Incoming, Reader};
pub use edits::{BusEdit, Edit, PatchEdit};
pub use error::{BankError, Error, Length, NotAllowed};
pub use format::Format;
pub use message::{to_vec, to_writer, Kind, Master, Message};
pub use operations::{Request, Target};
pub use parameter::{Parameter, ParseParameterError};
pub use patch::{Bus, Patch};
pub use plan::Edits;
pub use split::{Split, Voices, Zone};
pub use stream::{messages, report_at, reports, Found, Messages, Report, Reports};
pub use unit::{chain, Step, Steps, Unit};
