//! Viewer squares: in which squares of side 8 two pictures differ, and what
//! copying such squares does. No square is split here: each pixel is asked in
//! which square it lies, and the squares are then put in order.

use std::collections::BTreeMap;

/// A square's lower left corner, x and y.
pub type Corner = (u32, u32);

/// What the two calls are given.
pub struct Case {
    pub width: usize,
    pub rows: usize,
    /// How many squares the lent list has room for.
    pub room: usize,
    pub before: Vec<u16>,
    pub after: Vec<u16>,
    /// What copying writes to, and the numbers of the squares that it copies.
    pub view: Vec<u16>,
    pub list: Vec<u32>,
}

impl Case {
    /// Two lengths that differ are refused with 2; then a width of 0 or above
    /// 256, rows above 256, or another length than width times rows with 9.
    fn check(&self, length: usize) -> Result<(), u64> {
        if length != self.after.len() {
            return Err(2);
        }
        let wide = self.width == 0 || self.width > 256;
        if wide || self.rows > 256 || length != self.width * self.rows {
            return Err(9);
        }
        Ok(())
    }

    /// The squares that hold a differing pixel, or the refusal.
    pub fn listed(&self) -> Result<Vec<Corner>, u64> {
        self.check(self.before.len())?;
        let mut squares = BTreeMap::new();
        for at in (0..self.after.len()).filter(|at| self.before[*at] != self.after[*at]) {
            let corner = self.corner_of(at);
            squares.insert(turn(corner), corner);
        }
        if squares.len() > self.room {
            return Err(13);
        }
        Ok(squares.into_values().collect())
    }

    /// The view after copying, or the refusal. Each number of the list must
    /// tell a square whose corner is a pixel of the picture and which is one
    /// of those that the square of side 256 is split into; else it is 9.
    pub fn copied(&self) -> Result<Vec<u16>, u64> {
        self.check(self.view.len())?;
        let corners: Vec<Corner> = self.list.iter().map(|number| (number & 0xFFFF, number >> 16)).collect();
        if !corners.iter().all(|corner| self.has(*corner)) {
            return Err(9);
        }
        let taken = |at: usize| if corners.contains(&self.corner_of(at)) { self.after[at] } else { self.view[at] };
        Ok((0..self.view.len()).map(taken).collect())
    }

    /// The square in which the pixel of a place lies.
    fn corner_of(&self, at: usize) -> Corner {
        let eights = |n: usize| (n / 8 * 8) as u32;
        (eights(at % self.width), eights(at / self.width))
    }

    fn has(&self, (x, y): Corner) -> bool {
        x % 8 == 0 && y % 8 == 0 && (x as usize) < self.width && (y as usize) < self.rows
    }
}

/// When a square's turn comes. The largest squares in which two squares part
/// decide: lower before upper, then left before right. So the bits of y and
/// x by turns, those of the largest squares first, make the number.
pub fn turn((x, y): Corner) -> u32 {
    (3..8).rev().fold(0, |turn, bit| turn * 4 + (y >> bit & 1) * 2 + (x >> bit & 1))
}

#[cfg(test)]
mod tests {
    use super::*;

    fn blank(width: usize, rows: usize) -> Case {
        let picture = vec![0; width * rows];
        Case { width, rows, room: 1024, before: picture.clone(), after: picture.clone(), view: picture, list: vec![] }
    }

    /// Of four squares the lower ones come first, and of these the left one.
    #[test]
    fn quarters_in_order() {
        let mut case = blank(16, 16);
        case.after = vec![1; 256];
        assert_eq!(case.listed(), Ok(vec![(0, 0), (8, 0), (0, 8), (8, 8)]));
    }

    /// A whole quarter comes before the next one.
    #[test]
    fn quarter_after_quarter() {
        let mut case = blank(32, 9);
        case.after[8 * 32] = 1;
        case.after[16] = 1;
        assert_eq!(case.listed(), Ok(vec![(0, 8), (16, 0)]));
    }

    #[test]
    fn refusals_in_order() {
        let mut case = blank(257, 1);
        assert_eq!(case.listed(), Err(9));
        case.before.pop();
        assert_eq!(case.listed(), Err(2));
        let mut case = blank(8, 8);
        case.after[63] = 1;
        case.room = 0;
        assert_eq!(case.listed(), Err(13));
        case.room = 1;
        assert_eq!(case.listed(), Ok(vec![(0, 0)]));
    }

    /// No rows are a picture without pixels.
    #[test]
    fn no_rows() {
        assert_eq!(blank(256, 0).listed(), Ok(vec![]));
        assert_eq!(blank(256, 0).copied(), Ok(vec![]));
    }

    /// A copied square is cut off where the picture ends, and nothing else
    /// is copied.
    #[test]
    fn only_the_square() {
        let mut case = blank(10, 2);
        case.after = vec![7; 20];
        case.list = vec![8];
        let row = [0, 0, 0, 0, 0, 0, 0, 0, 7, 7];
        assert_eq!(case.copied(), Ok([row, row].concat()));
        for strange in [1, 65536, 16, 8 * 65536, u32::MAX] {
            case.list = vec![8, strange];
            assert_eq!(case.copied(), Err(9));
        }
    }
}
