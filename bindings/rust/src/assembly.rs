// The library as text for the assembler, the proved code as dist/ makes it, with names of this version
// alone: build.rs writes it.
include!(concat!(env!("OUT_DIR"), "/assembly.rs"));
