//! The terms of a test: what head and calendar say, and rules 1 to 8.

use crate::days::{day_count, eligible_days, is_weekend};
use crate::limits::*;
use crate::refusals::*;

/// The numbers of a head.
#[derive(Clone, Copy, Debug, PartialEq, Eq)]
pub struct Head {
    /// Year of the test day.
    pub year: u16,
    /// Month of the test day.
    pub month: u8,
    /// Day of the month of the test day.
    pub day: u8,
    /// First slot s of the event window.
    pub first_slot: u8,
    /// Losses low, high, extra-high, in hundredths of a percent.
    pub losses: [u16; CLASSES],
    /// Contract in kW.
    pub contract: u32,
    /// Count of points.
    pub count: u32,
}

/// The numbers of a head and the marks of its calendar.
#[derive(Clone, Copy, Debug, PartialEq, Eq)]
pub struct Terms {
    /// The head's numbers.
    pub head: Head,
    /// Calendar marks, day 1 back first.
    pub marks: [u8; DAYS_BACK],
}

/// A whole number of up to four bytes, the high byte first.
pub fn whole_number(bytes: &[u8]) -> u32 {
    bytes
        .iter()
        .fold(0, |number, &byte| number << 8 | u32::from(byte))
}

impl Head {
    /// Zero in every field.
    pub const ZEROS: Head = Head {
        year: 0,
        month: 0,
        day: 0,
        first_slot: 0,
        losses: [0; CLASSES],
        contract: 0,
        count: 0,
    };

    /// The numbers of a head value that has its length.
    fn cut(value: &[u8]) -> Head {
        Head {
            year: whole_number(&value[0..2]) as u16,
            month: value[2],
            day: value[3],
            first_slot: value[4],
            losses: [5, 7, 9].map(|place| whole_number(&value[place..place + 2]) as u16),
            contract: whole_number(&value[11..15]),
            count: whole_number(&value[15..17]),
        }
    }

    /// The bytes of all numbers but the count, as a head value begins.
    pub fn bytes_before_count(&self) -> Vec<u8> {
        let mut bytes = self.year.to_be_bytes().to_vec();
        bytes.extend([self.month, self.day, self.first_slot]);
        bytes.extend(self.losses.iter().flat_map(|loss| loss.to_be_bytes()));
        bytes.extend(self.contract.to_be_bytes());
        bytes
    }

    /// The count of the test day, where there is such a date in range.
    pub fn test_day(&self) -> Option<u32> {
        day_count(self.year, self.month, self.day)
    }

    /// s is 18 to 34.
    fn window_is_allowed(&self) -> bool {
        (LOWEST_FIRST_SLOT..=HIGHEST_FIRST_SLOT).contains(&self.first_slot)
    }

    /// The loss of a voltage class 1 to 3.
    pub fn loss_of_class(&self, class: u8) -> u16 {
        self.losses[usize::from(class) - 1]
    }
}

impl Terms {
    /// The numbers of a head and calendar; rule 1 is the only one tested here.
    pub fn cut(head: &[u8], calendar: &[u8]) -> Result<Terms, Refusal> {
        refuse_where(
            head.len() != HEAD_LENGTH || calendar.len() != CALENDAR_LENGTH,
            HEAD_OR_CALENDAR_LENGTH,
        )?;
        let mut marks = [0; DAYS_BACK];
        marks.copy_from_slice(calendar);
        Ok(Terms {
            head: Head::cut(head),
            marks,
        })
    }

    /// The terms that a head and calendar give: rules 1 to 8.
    pub fn read(head: &[u8], calendar: &[u8]) -> Result<Terms, Refusal> {
        let terms = Terms::cut(head, calendar)?;
        terms.check()?;
        Ok(terms)
    }

    /// Rules 2 to 8, in the paper's order.
    pub fn check(&self) -> Result<(), Refusal> {
        let head = &self.head;
        let test_day = head.test_day().ok_or(NO_SUCH_DATE)?;
        refuse_where(is_weekend(test_day), WEEKEND)?;
        refuse_where(!head.window_is_allowed(), FIRST_SLOT)?;
        refuse_where(head.losses.iter().any(|&loss| loss > HIGHEST_LOSS), LOSS)?;
        refuse_where(!contract_is_allowed(head.contract), CONTRACT)?;
        refuse_where(!(1..=HIGHEST_COUNT).contains(&head.count), COUNT)?;
        refuse_where(self.marks.iter().any(|&mark| mark > HIGHEST_MARK), MARK)
    }

    /// The eligible days back, nearest first; none where there is no test day.
    pub fn eligible_days(&self) -> Vec<u8> {
        self.head
            .test_day()
            .map(|test_day| eligible_days(test_day, &self.marks))
            .unwrap_or_default()
    }
}

/// A contract is 0 or 1,000 to 10,000,000 kW.
pub fn contract_is_allowed(contract: u32) -> bool {
    contract == 0 || (LOWEST_CONTRACT..=HIGHEST_CONTRACT).contains(&contract)
}
