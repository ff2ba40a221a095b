//! The middle of some numbers, and the quartiles around it.

#[derive(Clone, Copy, Debug, PartialEq)]
pub struct Spread {
    pub low: f64,
    pub middle: f64,
    pub high: f64,
}

impl Spread {
    pub fn of(numbers: impl IntoIterator<Item = f64>) -> Spread {
        let mut sorted: Vec<f64> = numbers.into_iter().collect();
        sorted.sort_by(f64::total_cmp);
        let at = |quarter: usize| sorted[(sorted.len() - 1) * quarter / 4];
        Spread { low: at(1), middle: at(2), high: at(3) }
    }
}

pub fn middle(numbers: &[f64]) -> f64 {
    Spread::of(numbers.iter().copied()).middle
}

#[cfg(test)]
mod tests {
    use super::*;

    #[test]
    fn the_middle_and_the_quartiles() {
        let numbers = [15, 3, 1, 2, 9, 8, 4, 7, 6, 5, 10, 14, 13, 12, 11].map(f64::from);
        assert_eq!(Spread::of(numbers), Spread { low: 4.0, middle: 8.0, high: 11.0 });
        assert_eq!(Spread::of([2.0]), Spread { low: 2.0, middle: 2.0, high: 2.0 });
    }
}
