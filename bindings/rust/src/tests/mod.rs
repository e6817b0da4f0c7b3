//! The crate over the real library (`answers`; `lengths`, the lists of block lengths; `refusals` with what they tell), and its
//! declarations against the header and the docs (`header`).
mod answers;
mod header;
mod inputs;
mod lengths;
mod refusals;
