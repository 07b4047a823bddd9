//! keyberon 0.1.1 without its matrix module: the modules are the original files, which build.rs finds.
//!
//! Assumes: the crates they lean on are the stand-ins of this workspace.

include!(concat!(env!("OUT_DIR"), "/modules.rs"));
