//! Sets of controllers.
use core::fmt;

/// A set of controllers as marks: the bit worth 1 is for controller 1, the bit worth 2 for controller 2, the bit worth 4 for controller 3 and
/// so on.
///
/// ```
/// let named = potekawhi::Marks(0b1001);
/// assert!(named.contains(4) && !named.contains(3));
/// assert!(named.iter().eq([1, 4]));
/// assert_eq!(format!("{named:?}"), "{1, 4}");
/// ```
#[derive(Clone, Copy, PartialEq, Eq, Hash, Default)]
pub struct Marks(pub u16);

impl Marks {
    /// Whether the controller of this number is in the set.
    pub fn contains(self, number: usize) -> bool {
        (1..=16).contains(&number) && self.0 >> (number - 1) & 1 == 1
    }

    /// Whether no controller is in the set.
    pub fn is_empty(self) -> bool {
        self.0 == 0
    }

    /// How many controllers are in the set.
    pub fn len(self) -> usize {
        self.0.count_ones() as usize
    }

    /// The numbers of the controllers in the set, rising.
    pub fn iter(self) -> impl Iterator<Item = usize> {
        (1..=16).filter(move |&number| self.contains(number))
    }
}

/// The numbers, as a set.
impl fmt::Debug for Marks {
    fn fmt(&self, f: &mut fmt::Formatter) -> fmt::Result {
        f.debug_set().entries(self.iter()).finish()
    }
}
