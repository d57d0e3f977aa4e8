//! The command `exam`: each verb, each exit status, plans, typed and binary networks,
//! the words for each ground, and trouble of every kind without a panic.

#[path = "../common/mod.rs"]
mod common;

mod archive;
mod best;
mod better;
mod board;
mod browser;
mod circle;
mod classes;
mod draw;
mod explain;
mod forms;
mod long;
mod mark;
mod pages;
mod parsed;
mod plan;
mod ranked;
mod rate;
mod read;
mod record;
mod refusals;
mod report;
mod same;
mod sheets;
mod show;
mod streams;
mod typing;
mod usage;
mod wanted;
mod xml;
