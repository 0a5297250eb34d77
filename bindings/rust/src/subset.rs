//! Subsets: boxes of cells.

use crate::Refusal;
use alloc::vec;
use alloc::vec::Vec;
use core::ops::Range;

/// A box of cells: one start and one length for each side.
///
/// As text it is what the command `durpaxeta` takes for `--subset`, one range for each side, the end not included:
///
/// ```
/// use durpaxeta::Subset;
///
/// let subset: Subset = "0..2,1..3".parse()?;
/// assert_eq!((subset.starts(), subset.lengths()), (&[0, 1][..], &[2, 2][..]));
/// assert_eq!(subset.to_string(), "0..2,1..3");
/// # Ok::<(), durpaxeta::TextError>(())
/// ```
#[derive(Clone, Debug, PartialEq, Eq, Hash)]
pub struct Subset {
    /// All starts, then all lengths.
    numbers: Vec<u64>,
}

impl Subset {
    /// From starts and lengths.
    ///
    /// # Errors
    ///
    /// `Subset` if there are not as many of both.
    ///
    /// ```
    /// use durpaxeta::{Refusal, Subset};
    /// assert_eq!(Subset::new(&[0, 1], &[2, 2])?.numbers(), [0, 1, 2, 2]);
    /// assert_eq!(Subset::new(&[0, 1], &[2]), Err(Refusal::Subset));
    /// # Ok::<(), Refusal>(())
    /// ```
    pub fn new(starts: &[u64], lengths: &[u64]) -> Result<Subset, Refusal> {
        if starts.len() != lengths.len() {
            return Err(Refusal::Subset);
        }
        Ok(Subset { numbers: [starts, lengths].concat() })
    }

    /// From one range a side.
    ///
    /// # Errors
    ///
    /// `Subset` if a range ends before it starts.
    ///
    /// ```
    /// use durpaxeta::{Refusal, Subset};
    /// assert_eq!(Subset::from_ranges(&[0..2, 1..3])?.numbers(), [0, 1, 2, 2]);
    /// assert_eq!(Subset::from_ranges(&[2..1]), Err(Refusal::Subset));
    /// # Ok::<(), Refusal>(())
    /// ```
    pub fn from_ranges(ranges: &[Range<u64>]) -> Result<Subset, Refusal> {
        let starts: Vec<u64> = ranges.iter().map(|range| range.start).collect();
        let lengths: Option<Vec<u64>> = ranges.iter().map(|range| range.end.checked_sub(range.start)).collect();
        Subset::new(&starts, &lengths.ok_or(Refusal::Subset)?)
    }

    /// From numbers as they stand in the C interface: all starts, then all lengths. The calls test them.
    ///
    /// ```
    /// use durpaxeta::Subset;
    /// assert_eq!(Subset::from_numbers(vec![0, 1, 2, 2]).starts(), [0, 1]);
    /// ```
    pub fn from_numbers(numbers: Vec<u64>) -> Subset {
        Subset { numbers }
    }

    /// All cells of a shape.
    ///
    /// ```
    /// use durpaxeta::Subset;
    /// assert_eq!(Subset::whole(&[2, 3]).to_string(), "0..2,0..3");
    /// ```
    pub fn whole(shape: &[u64]) -> Subset {
        Subset { numbers: [&vec![0; shape.len()], shape].concat() }
    }

    /// All starts, then all lengths.
    ///
    /// ```
    /// use durpaxeta::Subset;
    /// assert_eq!(Subset::whole(&[2, 3]).numbers(), [0, 0, 2, 3]);
    /// ```
    pub fn numbers(&self) -> &[u64] {
        &self.numbers
    }

    /// The starts.
    ///
    /// ```
    /// use durpaxeta::Subset;
    /// assert_eq!(Subset::whole(&[2, 3]).starts(), [0, 0]);
    /// ```
    pub fn starts(&self) -> &[u64] {
        &self.numbers[..self.numbers.len() / 2]
    }

    /// The lengths: the shape of what lies in the subset.
    ///
    /// ```
    /// use durpaxeta::Subset;
    /// assert_eq!(Subset::whole(&[2, 3]).lengths(), [2, 3]);
    /// ```
    pub fn lengths(&self) -> &[u64] {
        &self.numbers[self.numbers.len() / 2..]
    }
}
