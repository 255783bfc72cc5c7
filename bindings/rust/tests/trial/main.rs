//! The crate and the core below it, held to docs/REFERENCE.md.
//!
//! `cases` has the cases of that page. `random` holds every call to a plain enumeration (`plain`) on
//! drawn networks, `images` does so on damaged images and on lists that are no network, `weeks` on lists
//! of events, and `lent` lends slices of right and wrong lengths. Draws come from fixed seeds.

mod cases;
mod draw;
mod images;
mod lent;
mod plain;
mod random;
mod tally;
mod weeks;
