//! wildbg's crate `logic`, as far as it is ported. The build script brings its files.

include!(concat!(env!("OUT_DIR"), "/lib.rs"));
