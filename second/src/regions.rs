//! Pictures back and forth (document 02, [1]): the region that IMG opens,
//! and which of its pixels is next. Nothing is walked: the pixel follows
//! from how many were transferred.

/// A region from its first corner to its second.
#[derive(Clone, Copy, Debug, PartialEq, Eq)]
pub struct Region {
    pub from_memory: bool,
    pub first: (i64, i64),
    pub second: (i64, i64),
    /// How many pixels were transferred.
    pub done: i64,
}

impl Region {
    /// IMG's four parameters are x0, y0, x1, y1.
    pub fn of_corners(from_memory: bool, given: &[i64]) -> Region {
        Region { from_memory, first: (given[0], given[1]), second: (given[2], given[3]), done: 0 }
    }

    fn width(&self) -> i64 {
        (self.second.0 - self.first.0).abs() + 1
    }

    fn height(&self) -> i64 {
        (self.second.1 - self.first.1).abs() + 1
    }

    pub fn pixels_left(&self) -> i64 {
        self.width() * self.height() - self.done
    }

    pub fn is_used_up(&self) -> bool {
        self.pixels_left() == 0
    }

    /// From the first corner towards the second, along x first.
    pub fn pixel(&self) -> (i64, i64) {
        let (across, along) = ((self.second.0 - self.first.0).signum(), (self.second.1 - self.first.1).signum());
        (self.first.0 + across * (self.done % self.width()), self.first.1 + along * (self.done / self.width()))
    }

    /// One pixel more was transferred.
    pub fn moved_on(self) -> Region {
        Region { done: self.done + 1, ..self }
    }
}

#[cfg(test)]
mod tests {
    use super::*;

    fn pixels(given: [i64; 4]) -> Vec<(i64, i64)> {
        let mut region = Region::of_corners(true, &given);
        let mut pixels = Vec::new();
        while !region.is_used_up() {
            pixels.push(region.pixel());
            region = region.moved_on();
        }
        pixels
    }

    /// Along x first; a swapped corner turns that way round.
    #[test]
    fn pixels_go_row_by_row() {
        assert_eq!(pixels([3, 7, 3, 7]), [(3, 7)]);
        assert_eq!(pixels([1, 5, 2, 6]), [(1, 5), (2, 5), (1, 6), (2, 6)]);
        assert_eq!(pixels([2, 5, 1, 6]), [(2, 5), (1, 5), (2, 6), (1, 6)]);
        assert_eq!(pixels([1, 6, 2, 5]), [(1, 6), (2, 6), (1, 5), (2, 5)]);
        assert_eq!(pixels([2, 6, 1, 5]), [(2, 6), (1, 6), (2, 5), (1, 5)]);
        assert_eq!(pixels([0, 0, 16383, 1]).len(), 32768);
    }
}
