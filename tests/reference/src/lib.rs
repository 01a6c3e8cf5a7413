//! An independent reference implementation of the paper
//! "Exact rules for the build: four serial channels", and of seven of the
//! "Further requests from customers": a, "Thirteenth character", b, "Say why
//! nothing was stored", c, "Choosing the rate", e, "Constants page full", h, "Two
//! boxes in a row", l, "Order between ports", and n, "Confirmations". e, h and l
//! change no answer; h stands over the card, l stands in the tests and in a
//! generator, n stands by itself over the reader of a marked stream, and c stands
//! by itself.
//! Comments in quotation marks quote the paper; the words of a request follow
//! its name.

pub mod account;
pub mod card;
pub mod confirmations;
pub mod ending_lines;
pub mod endings;
pub mod fields;
pub mod fitters;
pub mod frames;
pub mod generate;
pub mod random;
pub mod rate;
pub mod reads;
pub mod stream;
