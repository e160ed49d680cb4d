//! In place of ezpz's `vector.rs`, which needs a crate more: what `datatypes/outputs.rs` names, and no call counted runs.
pub(crate) struct V {
    x: f64,
    y: f64,
}

impl V {
    pub fn new(x: f64, y: f64) -> Self {
        Self { x, y }
    }

    pub fn euclidean_distance(self, r: Self) -> f64 {
        (self.x - r.x).hypot(self.y - r.y)
    }
}
