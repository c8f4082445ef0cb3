//! How often each refusal, each start of a line, lines that tie, and each
//! situation of a figure come over many seeds.

use crate::generator::generate;
use crate::printing::drawing_outcome;
use crate::situations::Situations;
use crate::starts::starts;

/// The refusals that the drawing program can print.
const REFUSALS: [i64; 12] = [0, 3, 4, 5, 6, 7, 8, 9, 10, 11, 12, 14];

pub struct Shares {
    pub refusals: Vec<(i64, u64)>,
    pub too_long: u64,
    /// Streams with a line that starts visible, LX alone having come.
    pub shown: u64,
    /// Streams with a line that starts with a hop.
    pub hopped: u64,
    /// Streams in which a line passes at the depth that a place starts with.
    pub tied_with_start: u64,
    /// Streams in which a line passes at equal depth over what was drawn.
    pub tied_with_drawn: u64,
    count: u64,
    pub situations: Situations,
}

pub fn shares(first: u64, count: u64) -> Shares {
    let refusals = REFUSALS.iter().map(|number| (*number, 0)).collect();
    let mut shares = Shares {
        refusals,
        too_long: 0,
        shown: 0,
        hopped: 0,
        tied_with_start: 0,
        tied_with_drawn: 0,
        count,
        situations: Situations::none(),
    };
    for seed in first..first + count {
        let bytes = generate(seed);
        match drawing_outcome(&bytes) {
            None => shares.too_long += 1,
            Some((outcome, picture)) => {
                shares.add(outcome.refusal);
                shares.shown += u64::from(starts(&bytes).shown);
                shares.hopped += u64::from(starts(&bytes).hopped);
                shares.situations.add(&bytes);
                shares.tied_with_start += u64::from(picture.ties.with_start > 0);
                shares.tied_with_drawn += u64::from(picture.ties.with_drawn > 0);
            }
        }
    }
    shares
}

impl Shares {
    fn add(&mut self, refusal: i64) {
        for row in &mut self.refusals {
            if row.0 == refusal {
                row.1 += 1;
            }
        }
    }

    pub fn text(&self) -> String {
        let rows: String = self.refusals.iter().map(|row| format!("refusal {} streams {}\n", row.0, row.1)).collect();
        let starts = format!("start visible streams {}\nhop streams {}\n", self.shown, self.hopped);
        let ties = format!("tie with start streams {}\ntie with drawn streams {}\n", self.tied_with_start, self.tied_with_drawn);
        let far = format!("far figure streams {}\n", self.situations.far);
        rows + &format!("too long streams {}\n", self.too_long) + &starts + &ties + &far + &self.situations.text()
    }

    /// Whether each refusal from 3 to 12, and 14, came, and each situation.
    pub fn all_came(&self) -> bool {
        self.refusals.iter().all(|row| row.0 == 0 || row.1 > 0) && self.situations.all_came()
    }

    /// Whether both starts of a line came in a third of the streams.
    pub fn starts_often(&self) -> bool {
        3 * self.shown >= self.count && 3 * self.hopped >= self.count
    }

    /// Whether half of the streams have a figure that reaches the largest
    /// coordinate.
    pub fn far_often(&self) -> bool {
        2 * self.situations.far >= self.count
    }

    /// Whether ties of both kinds came in a tenth of the streams.
    pub fn ties_often(&self) -> bool {
        10 * self.tied_with_start >= self.count && 10 * self.tied_with_drawn >= self.count
    }
}
