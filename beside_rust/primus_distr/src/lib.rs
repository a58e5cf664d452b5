//! The Rust files, as build.rs lays them out.
#![allow(dead_code, unused_imports)]

include!(concat!(env!("OUT_DIR"), "/src/lib.rs"));
