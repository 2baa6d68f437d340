//! What cases hold, by features that must all occur.

use std::collections::BTreeMap;

/// How often each feature occurred.
#[derive(Default)]
pub struct Seen(BTreeMap<String, u32>);

impl Seen {
    pub fn note(&mut self, feature: &str, occurs: bool) {
        *self.0.entry(feature.to_string()).or_default() += u32::from(occurs);
    }

    /// Which of the values that matter a field has.
    pub fn note_value<T: PartialEq + ToString>(&mut self, field: &str, value: T, matter: &[T]) {
        for matters in matter {
            let feature = format!("{field} {}", matters.to_string());
            self.note(&feature, value == *matters);
        }
    }

    /// Every two faults at once; a date cannot be both 2 and 3.
    pub fn note_faults(&mut self, faults: &[(u32, bool)]) {
        for (place, (one, first)) in faults.iter().enumerate() {
            for (other, second) in &faults[place + 1..] {
                if (*one, *other) != (2, 3) {
                    self.note(&format!("faults {one} and {other}"), *first && *second);
                }
            }
        }
        let several = faults.iter().filter(|fault| fault.1).count() > 2;
        self.note("three faults or more at once", several);
    }

    /// Fails where one of so many features never occurred.
    pub fn all_occur(&self, features: usize) {
        let never: Vec<_> = self.0.iter().filter(|(_, times)| **times == 0).collect();
        assert!(never.is_empty(), "never seen: {never:?}");
        assert_eq!(self.0.len(), features, "{:?}", self.0);
    }
}
