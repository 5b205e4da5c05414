//! An independent reference model of the card described by the rules paper,
//! a bench that speaks to it in lines, and a generator of
//! scripts of such lines.
//!
//! * [`model`]: the card.
//! * [`ring`]: the slots of its log.
//! * [`messaging`]: its sessions with MACs, and [`aes`] and [`cmac`] below them.
//! * [`mod@bench`]: one bench line in, one answer line out.
//! * [`scripts`]: deterministic scripts of bench lines for comparing programs,
//!   and [`tally`], what they contain.
//! * [`timing`]: such scripts for timing programs.
//! * [`wear`]: one for the wear of the log's slots.
//! * [`terminal`]: what a terminal sends, for both.
//! * [`frames`], [`hex`], [`rng`]: what both are made with.
//! * [`child`]: running another bench program on a script.
//! * [`reader`]: a bench program's card in a virtual PC/SC reader.
//! * [`check`]: trying that reader, and the card as a library.

#![forbid(unsafe_code)]
#![warn(missing_docs)]

pub mod aes;
pub mod bench;
pub mod check;
pub mod child;
pub mod cmac;
pub mod frames;
pub mod hex;
pub mod messaging;
pub mod model;
pub mod reader;
pub mod ring;
pub mod rng;
pub mod scripts;
pub mod tally;
pub mod terminal;
pub mod timing;
pub mod wear;
