//! Stand-in for src/canvas/map.rs, which is not to be had: two names that canvas.rs hands on.
pub struct Map;
pub struct MapResolution;
