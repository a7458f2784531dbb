//! The Rust original, copied at build time with the listed changes (see build.rs and changes.rs).
#![allow(dead_code, unused_imports, unused_variables)]

include!(concat!(env!("OUT_DIR"), "/modules.rs"));
