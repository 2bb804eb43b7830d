//! The lab: what trainers, field chemists and support engineers run over the proved core.

#![forbid(unsafe_code)]

pub mod capture;
pub mod command_line;
mod help;
mod json;
pub mod lesson;
pub mod lines;
pub mod output;
pub mod picture;
pub mod reports;
pub mod run;
pub mod script;
mod segments;
pub mod show;
pub mod trbs;
pub mod walk;
mod window;
pub mod words;
pub mod world;
