//! The points of a list as their fields hold them, and rules 11, 12, 14, 16 or
//! 50, and 51 or 52.

use crate::limits::*;
use crate::refusals::*;
use crate::terms::whole_number;

/// The kinds of points, one for each tag.
#[derive(Clone, Copy, Debug, PartialEq, Eq)]
pub enum Kind {
    /// Tag 3.
    Consumer,
    /// Tag 4.
    Generator,
    /// Tag 5.
    MixedFiring,
}

impl Kind {
    /// Rule 11: tag not 3, 4 or 5.
    pub fn of_tag(tag: u8) -> Result<Kind, Refusal> {
        match tag {
            CONSUMER_TAG => Ok(Kind::Consumer),
            GENERATOR_TAG => Ok(Kind::Generator),
            MIXED_FIRING_TAG => Ok(Kind::MixedFiring),
            _ => Err(POINT_TAG),
        }
    }

    /// Rule 12: length not that of the tag.
    pub fn check_length(self, length: usize) -> Result<(), Refusal> {
        let due = match self {
            Kind::Consumer => CONSUMER_LENGTH,
            Kind::Generator => GENERATOR_LENGTH,
            Kind::MixedFiring => MIXED_FIRING_LENGTH,
        };
        refuse_where(length != due, POINT_LENGTH)
    }
}

/// A consumer's value: point number, class, 1,488 readings.
#[derive(Clone, Copy, Debug)]
pub struct Consumer<'a> {
    value: &'a [u8],
}

/// A generator's value: point number, baseline in kW, six readings.
#[derive(Clone, Copy, Debug)]
pub struct Generator<'a> {
    value: &'a [u8],
}

/// A mixed-firing plant's value: point number, biomass share in tenths of a
/// percent, six readings outside the feed-in tariff, six inside it.
#[derive(Clone, Copy, Debug)]
pub struct MixedFiring<'a> {
    value: &'a [u8],
}

/// A point of the list.
#[derive(Clone, Copy, Debug)]
pub enum Point<'a> {
    /// A consumer.
    Consumer(Consumer<'a>),
    /// A generator.
    Generator(Generator<'a>),
    /// A mixed-firing plant.
    MixedFiring(MixedFiring<'a>),
}

/// Where a consumer's readings begin: behind number and class.
const CONSUMER_READINGS_BEGIN: usize = NUMBER_LENGTH + 1;
/// Where a generator's readings begin: behind number and baseline.
const GENERATOR_READINGS_BEGIN: usize = NUMBER_LENGTH + 4;
/// Where a mixed-firing plant's readings begin: behind number and share.
const MIXED_FIRING_READINGS_BEGIN: usize = NUMBER_LENGTH + 2;

/// The reading at a place among readings of four bytes.
fn reading_at(readings: &[u8], place: usize) -> u32 {
    let begin = READING_LENGTH * place;
    whole_number(&readings[begin..begin + READING_LENGTH])
}

impl Consumer<'_> {
    /// The voltage class: 1 low, 2 high, 3 extra-high.
    pub fn class(&self) -> u8 {
        self.value[NUMBER_LENGTH]
    }

    /// The reading of a slot; day 0 back is the test day.
    pub fn reading(&self, back: usize, slot: usize) -> u64 {
        let readings = &self.value[CONSUMER_READINGS_BEGIN..];
        u64::from(reading_at(readings, SLOTS_OF_A_DAY * back + slot))
    }
}

impl Generator<'_> {
    /// The baseline in kW.
    pub fn baseline(&self) -> u32 {
        whole_number(&self.value[NUMBER_LENGTH..GENERATOR_READINGS_BEGIN])
    }

    /// The reading of a window slot, 0 to 5.
    pub fn reading(&self, slot: usize) -> u32 {
        reading_at(&self.value[GENERATOR_READINGS_BEGIN..], slot)
    }
}

impl MixedFiring<'_> {
    /// The biomass share in tenths of a percent.
    pub fn share(&self) -> u16 {
        whole_number(&self.value[NUMBER_LENGTH..MIXED_FIRING_READINGS_BEGIN]) as u16
    }

    /// The reading outside the feed-in tariff of a window slot, 0 to 5.
    pub fn outside(&self, slot: usize) -> u32 {
        reading_at(&self.value[MIXED_FIRING_READINGS_BEGIN..], slot)
    }

    /// The reading inside the feed-in tariff of a window slot, 0 to 5.
    pub fn inside(&self, slot: usize) -> u32 {
        let readings = &self.value[MIXED_FIRING_READINGS_BEGIN..];
        reading_at(readings, WINDOW_SLOTS + slot)
    }
}

impl<'a> Point<'a> {
    /// The point of a tag and value: rules 11 and 12.
    pub fn cut(tag: u8, value: &'a [u8]) -> Result<Point<'a>, Refusal> {
        let kind = Kind::of_tag(tag)?;
        kind.check_length(value.len())?;
        Ok(match kind {
            Kind::Consumer => Point::Consumer(Consumer { value }),
            Kind::Generator => Point::Generator(Generator { value }),
            Kind::MixedFiring => Point::MixedFiring(MixedFiring { value }),
        })
    }

    fn value(&self) -> &'a [u8] {
        match self {
            Point::Consumer(consumer) => consumer.value,
            Point::Generator(generator) => generator.value,
            Point::MixedFiring(plant) => plant.value,
        }
    }

    /// The point number.
    pub fn number(&self) -> [u8; NUMBER_LENGTH] {
        let mut number = [0; NUMBER_LENGTH];
        number.copy_from_slice(&self.value()[..NUMBER_LENGTH]);
        number
    }

    /// Rule 14: number not 22 digits, or all nines.
    pub fn check_number(&self) -> Result<(), Refusal> {
        refuse_where(!number_is_allowed(&self.number()), NUMBER)
    }

    /// Rule 16: class not 1 to 3, or baseline above 1,000,000. At its place rule
    /// 50: share above 1,000.
    pub fn check_class_baseline_or_share(&self) -> Result<(), Refusal> {
        let (fits, refusal) = match self {
            Point::Consumer(consumer) => {
                let allowed = (1..=CLASSES).contains(&usize::from(consumer.class()));
                (!allowed, CLASS_OR_BASELINE)
            }
            Point::Generator(generator) => {
                let above = generator.baseline() > HIGHEST_GENERATOR_BASELINE;
                (above, CLASS_OR_BASELINE)
            }
            Point::MixedFiring(plant) => (plant.share() > WHOLE_SHARE, SHARE),
        };
        refuse_where(fits, refusal)
    }

    /// The readings in the order of the field.
    pub fn readings(&self) -> impl Iterator<Item = u32> + 'a {
        let begin = match self {
            Point::Consumer(_) => CONSUMER_READINGS_BEGIN,
            Point::Generator(_) => GENERATOR_READINGS_BEGIN,
            Point::MixedFiring(_) => MIXED_FIRING_READINGS_BEGIN,
        };
        let readings = self.value()[begin..].chunks_exact(READING_LENGTH);
        readings.map(whole_number)
    }

    /// The index of the first reading above 1,000,000,000, used or not, counted
    /// from 0 in the order of the field.
    pub fn first_large_reading(&self) -> Option<usize> {
        let mut readings = self.readings();
        readings.position(|reading| reading > HIGHEST_READING)
    }

    /// The number for a large reading: 52 on a consumer's days back, otherwise
    /// 51.
    fn refusal_of_reading(&self, index: usize) -> Refusal {
        match self {
            Point::Consumer(_) if index >= SLOTS_OF_A_DAY => READING_OF_A_DAY_BACK,
            _ => READING,
        }
    }

    /// Rules 51 and 52, at the place of 17. The first large reading of all
    /// decides, so that the lower index wins where both cases occur.
    pub fn check_readings(&self) -> Result<(), Told> {
        let Some(index) = self.first_large_reading() else {
            return Ok(());
        };
        Err(Told {
            refusal: self.refusal_of_reading(index),
            index: index as u32,
        })
    }
}

/// An allowed point number: 22 ASCII digits, not all nines.
pub fn number_is_allowed(number: &[u8; NUMBER_LENGTH]) -> bool {
    number.iter().all(u8::is_ascii_digit) && *number != NOT_YET_ISSUED
}
