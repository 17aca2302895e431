//! What the three tools are made of: `image-show`, `mirror-check`, `calls-replay`. They stand over the crate `ff_state` and nothing else.

#![forbid(unsafe_code)]

pub mod blame;
pub mod book;
pub mod check;
pub mod command;
pub mod compare;
pub mod explain;
pub mod fields;
pub mod key;
pub mod list;
pub mod map;
pub mod places;
pub mod reasons;
pub mod recording;
pub mod records;
pub mod replay;
pub mod report;
pub mod sections;
pub mod show;
pub mod track;
pub mod words;
