//! What crates/exports/pongiwaru.h declares, made from its text by build.rs.
#![allow(dead_code)]
include!(concat!(env!("OUT_DIR"), "/header.rs"));
