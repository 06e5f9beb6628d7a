//! The tracing machine by hand, without contracts: what the yardstick of the benchmarks is, and how fast its library is.

pub mod bytes;
mod copies;
mod ends;
pub mod library;
mod names;
mod objects;
mod plain;
pub mod reading;
pub mod replies;
mod requests;
mod rows;
mod rules;
pub mod scanning;
mod skipping;
mod slots;
pub mod steps;
pub mod tables;
pub mod text;
mod turns;
mod typed;
