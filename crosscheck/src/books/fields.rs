//! Fields of books put together from their numbers, whether allowed or not.

use crate::limits::*;
pub use crate::terms::Head;

impl Head {
    /// The head of example M: 2024-08-07, s 26, losses 700, 400, 200, contract
    /// 1,000, count 1.
    pub const EXAMPLE_M: Head = Head {
        year: 2024,
        month: 8,
        day: 7,
        first_slot: 26,
        losses: [700, 400, 200],
        contract: 1_000,
        count: 1,
    };

    /// The head value; its count has two bytes.
    pub fn value(&self) -> Vec<u8> {
        let count = u16::try_from(self.count).expect("a count of two bytes");
        let mut value = self.bytes_before_count();
        value.extend(count.to_be_bytes());
        value
    }
}

/// A point number with leading zeros.
pub fn point_number(number: u128) -> [u8; NUMBER_LENGTH] {
    let digits = format!("{number:0width$}", width = NUMBER_LENGTH);
    let mut bytes = [0; NUMBER_LENGTH];
    bytes.copy_from_slice(digits.as_bytes());
    bytes
}

/// The readings behind the front of a point's value, four bytes each.
fn with_readings(mut front: Vec<u8>, readings: &[u32]) -> Vec<u8> {
    front.extend(readings.iter().flat_map(|reading| reading.to_be_bytes()));
    front
}

/// A consumer's parts.
#[derive(Clone, Debug, PartialEq, Eq)]
pub struct ConsumerFields {
    /// The point number.
    pub number: [u8; NUMBER_LENGTH],
    /// The voltage class.
    pub class: u8,
    /// The 1,488 readings, the test day's 48 first.
    pub readings: Vec<u32>,
}

impl ConsumerFields {
    /// A consumer with the same reading everywhere.
    pub fn flat(number: u128, class: u8, reading: u32) -> ConsumerFields {
        ConsumerFields {
            number: point_number(number),
            class,
            readings: vec![reading; CONSUMER_READINGS],
        }
    }

    /// The reading of a slot of a day back; day 0 back is the test day.
    pub fn reading(&mut self, back: usize, slot: usize) -> &mut u32 {
        &mut self.readings[SLOTS_OF_A_DAY * back + slot]
    }

    /// The six readings of a day back from a slot on.
    fn six(&mut self, back: usize, begin: usize) -> &mut [u32] {
        let begin = SLOTS_OF_A_DAY * back + begin;
        &mut self.readings[begin..begin + WINDOW_SLOTS]
    }

    /// The six window readings of a day back; day 0 back is the test day.
    pub fn window(&mut self, back: usize, first_slot: u8) -> &mut [u32] {
        self.six(back, usize::from(first_slot))
    }

    /// The six earlier readings of a day back; day 0 back is the test day.
    pub fn earlier(&mut self, back: usize, first_slot: u8) -> &mut [u32] {
        self.six(back, usize::from(first_slot) - EARLIER_LEAD)
    }

    /// Spreads a window sum over the six window readings of a day back.
    pub fn set_window_sum(&mut self, back: usize, first_slot: u8, sum: u32) {
        let slots = WINDOW_SLOTS as u32;
        let window = self.window(back, first_slot);
        window.fill(sum / slots);
        window[(sum % slots) as usize] += sum % slots;
    }

    /// The consumer value.
    pub fn value(&self) -> Vec<u8> {
        let mut front = self.number.to_vec();
        front.push(self.class);
        with_readings(front, &self.readings)
    }
}

/// A generator's parts.
#[derive(Clone, Debug, PartialEq, Eq)]
pub struct GeneratorFields {
    /// The point number.
    pub number: [u8; NUMBER_LENGTH],
    /// The baseline in kW.
    pub baseline: u32,
    /// The six readings.
    pub readings: [u32; WINDOW_SLOTS],
}

impl GeneratorFields {
    /// A generator with the same reading in each slot.
    pub fn flat(number: u128, baseline: u32, reading: u32) -> GeneratorFields {
        GeneratorFields {
            number: point_number(number),
            baseline,
            readings: [reading; WINDOW_SLOTS],
        }
    }

    /// The generator value.
    pub fn value(&self) -> Vec<u8> {
        let mut front = self.number.to_vec();
        front.extend(self.baseline.to_be_bytes());
        with_readings(front, &self.readings)
    }
}

/// A mixed-firing plant's parts.
#[derive(Clone, Debug, PartialEq, Eq)]
pub struct MixedFiringFields {
    /// The point number.
    pub number: [u8; NUMBER_LENGTH],
    /// The biomass share in tenths of a percent.
    pub share: u16,
    /// The twelve readings: six outside the feed-in tariff, then six inside.
    pub readings: [u32; MIXED_FIRING_READINGS],
}

impl MixedFiringFields {
    /// A plant with the same two readings in each slot.
    pub fn flat(number: u128, share: u16, outside: u32, inside: u32) -> MixedFiringFields {
        let mut readings = [outside; MIXED_FIRING_READINGS];
        readings[WINDOW_SLOTS..].fill(inside);
        MixedFiringFields {
            number: point_number(number),
            share,
            readings,
        }
    }

    /// The value.
    pub fn value(&self) -> Vec<u8> {
        let mut front = self.number.to_vec();
        front.extend(self.share.to_be_bytes());
        with_readings(front, &self.readings)
    }
}

/// A point's parts.
#[derive(Clone, Debug, PartialEq, Eq)]
pub enum PointFields {
    /// A consumer.
    Consumer(ConsumerFields),
    /// A generator.
    Generator(GeneratorFields),
    /// A mixed-firing plant.
    MixedFiring(MixedFiringFields),
}

impl PointFields {
    /// The tag.
    pub fn tag(&self) -> u8 {
        match self {
            PointFields::Consumer(_) => CONSUMER_TAG,
            PointFields::Generator(_) => GENERATOR_TAG,
            PointFields::MixedFiring(_) => MIXED_FIRING_TAG,
        }
    }

    /// The value.
    pub fn value(&self) -> Vec<u8> {
        match self {
            PointFields::Consumer(consumer) => consumer.value(),
            PointFields::Generator(generator) => generator.value(),
            PointFields::MixedFiring(plant) => plant.value(),
        }
    }

    /// The point number.
    pub fn number(&mut self) -> &mut [u8; NUMBER_LENGTH] {
        match self {
            PointFields::Consumer(consumer) => &mut consumer.number,
            PointFields::Generator(generator) => &mut generator.number,
            PointFields::MixedFiring(plant) => &mut plant.number,
        }
    }

    /// The readings.
    pub fn readings(&mut self) -> &mut [u32] {
        match self {
            PointFields::Consumer(consumer) => &mut consumer.readings,
            PointFields::Generator(generator) => &mut generator.readings,
            PointFields::MixedFiring(plant) => &mut plant.readings,
        }
    }
}

/// Tag, length and value, with no test.
pub fn raw_field(tag: u8, value: &[u8]) -> Vec<u8> {
    let mut field = vec![tag];
    field.extend((value.len() as u16).to_be_bytes());
    field.extend(value);
    field
}

/// A list with its head and calendar.
#[derive(Clone, Debug, PartialEq, Eq)]
pub struct List {
    /// The head.
    pub head: Head,
    /// The calendar marks.
    pub marks: [u8; DAYS_BACK],
    /// The points.
    pub points: Vec<PointFields>,
}

impl List {
    /// A list without marks and points.
    pub fn new(head: Head) -> List {
        List {
            head,
            marks: [NO_MARK; DAYS_BACK],
            points: Vec::new(),
        }
    }

    /// Puts a point at the end and raises the count to the points there are.
    pub fn push(&mut self, point: PointFields) {
        self.points.push(point);
        self.head.count = self.points.len() as u32;
    }

    /// The list as a book, with no test.
    pub fn book(&self) -> Vec<u8> {
        let mut book = raw_field(HEAD_TAG, &self.head.value());
        book.extend(raw_field(CALENDAR_TAG, &self.marks));
        for point in &self.points {
            book.extend(raw_field(point.tag(), &point.value()));
        }
        book
    }
}
