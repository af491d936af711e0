//! Pongiwaru's records as trees, jobs as text, and a job beside its log: for people, and two builds compared.
//! docs/RECORDS.md has the record form, README.md the text.
pub mod diff;
pub mod explain;
pub mod fits;
pub mod jobs;
pub mod json;
pub mod location;
pub mod manifest;
pub mod names;
pub mod pairs;
pub mod payload;
pub mod plan;
pub mod program;
pub mod progress;
pub mod record;
pub mod report;
pub mod run;
pub mod run_words;
pub mod show;
pub mod sums;
pub mod text;
pub mod watch;
