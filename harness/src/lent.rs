//! Lent memory: a slice between two guards, so that what is written before or
//! behind it is seen too.

/// The elements of a guard: odd, so that lent bytes are not aligned.
const GUARD: usize = 13;

#[derive(Clone)]
pub struct Lent<T> {
    whole: Vec<T>,
}

impl<T: Copy + PartialEq> Lent<T> {
    /// Lends this content, with anything at all before and behind it.
    pub fn new(content: &[T], mut anything: impl FnMut() -> T) -> Self {
        let mut whole = Vec::with_capacity(content.len() + 2 * GUARD);
        whole.extend((0..GUARD).map(|_| anything()));
        whole.extend_from_slice(content);
        whole.extend((0..GUARD).map(|_| anything()));
        Self { whole }
    }

    pub fn len(&self) -> usize {
        self.whole.len() - 2 * GUARD
    }

    pub fn is_empty(&self) -> bool {
        self.len() == 0
    }

    /// The slice that is lent.
    pub fn slice(&self) -> &[T] {
        &self.whole[GUARD..GUARD + self.len()]
    }

    pub fn slice_mut(&mut self) -> &mut [T] {
        let end = GUARD + self.len();
        &mut self.whole[GUARD..end]
    }

    /// The first place, counted from the slice's own first, at which this
    /// memory is not the other, with both elements.
    pub fn first_difference(&self, other: &Self) -> Option<(isize, T, T)> {
        if self.whole == other.whole {
            return None;
        }
        let mut pairs = self.whole.iter().zip(&other.whole);
        let place = pairs.position(|(one, two)| one != two)?;
        let from_slice = place as isize - GUARD as isize;
        Some((from_slice, self.whole[place], other.whole[place]))
    }
}

#[cfg(test)]
impl<T> Lent<T> {
    /// The slice with its guards.
    pub fn whole_mut(&mut self) -> &mut [T] {
        &mut self.whole
    }
}

#[cfg(test)]
mod tests {
    use super::{Lent, GUARD};

    #[test]
    fn a_difference_is_told_from_the_first_element_on() {
        let one = Lent::new(&[7u64; 4], || 9);
        let end = GUARD + 4;
        for place in [0, GUARD - 1, GUARD, end - 1, end, end + GUARD - 1] {
            let mut other = one.clone();
            other.whole_mut()[place] = 8;
            let from_slice = place as isize - GUARD as isize;
            let there = if (GUARD..end).contains(&place) { 7 } else { 9 };
            assert_eq!(one.first_difference(&other), Some((from_slice, there, 8)));
        }
        assert_eq!(one.first_difference(&one.clone()), None);
    }
}
