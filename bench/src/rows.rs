//! What the measurements hand to the proved code.

/// A square: its lower left corner in grid units, and its level.
#[repr(C)]
#[derive(Clone, Copy, Debug)]
pub struct SquareRow {
    pub x: i64,
    pub y: i64,
    pub level: u8,
}

impl SquareRow {
    /// The quarters of a square of level above 0: left lower, right lower, left upper, right upper.
    pub fn quarters(self) -> [SquareRow; 4] {
        let level = self.level - 1;
        let half = 1 << level;
        [(0, 0), (half, 0), (0, half), (half, half)].map(|(dx, dy)| SquareRow { x: self.x + dx, y: self.y + dy, level })
    }
}
