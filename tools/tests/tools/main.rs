//! The tools' tests, one program: each is run as a user would run it, and its parts are tried on what a seed gives.

mod common;
mod images;
mod lines;
mod lists;
mod mirrors;
mod records;
