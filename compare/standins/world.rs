//! Stand-in for src/canvas/world.rs, which is not to be had and which nothing asks for.
