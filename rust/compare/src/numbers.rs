//! The numbers that calls answered, counted, so that a test fails where one is rare.

/// How often each number of RULES 'Numbers' was answered, 0 to 17.
#[derive(Debug, Default, PartialEq, Eq)]
pub struct Counts([usize; 18]);

impl Counts {
    pub fn add(&mut self, number: u8) {
        self.0[usize::from(number)] += 1;
    }

    /// These numbers so often, and no other.
    pub fn assert_is(&self, times: &[(u8, usize)]) {
        let mut expected = Counts::default();
        for &(number, times) in times {
            expected.0[usize::from(number)] = times;
        }
        assert_eq!(*self, expected);
    }

    /// Each of these at least so often, and no other.
    pub fn assert_has(&self, numbers: &[u8], least: usize) {
        for (number, &times) in (0..).zip(&self.0) {
            let enough = if numbers.contains(&number) {
                times >= least
            } else {
                times == 0
            };
            assert!(enough, "{number} in {self:?}");
        }
    }
}
