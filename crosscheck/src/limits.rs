//! The fixed numbers of document 01 and change requests 1 and 4, each named once.

/// First and last year of the dates ("Days").
pub const FIRST_YEAR: u16 = 2020;
/// See [`FIRST_YEAR`].
pub const LAST_YEAR: u16 = 2099;
/// Days back that a calendar and a consumer cover.
pub const DAYS_BACK: usize = 30;
/// Half-hours of a day.
pub const SLOTS_OF_A_DAY: usize = 48;
/// Slots of the event window, and as many earlier slots.
pub const WINDOW_SLOTS: usize = 6;
/// Lowest and highest first slot s of the window (rule 4).
pub const LOWEST_FIRST_SLOT: u8 = 18;
/// See [`LOWEST_FIRST_SLOT`].
pub const HIGHEST_FIRST_SLOT: u8 = 34;
/// The earlier slots begin this many slots before the window.
pub const EARLIER_LEAD: usize = 10;

/// Highest mark of the calendar (rule 8).
pub const HIGHEST_MARK: u8 = 3;
/// The mark of a day that nothing excludes.
pub const NO_MARK: u8 = 0;

/// Days that one round of the walk looks at.
pub const DAYS_OF_A_ROUND: usize = 5;
/// Days that make a baseline.
pub const CHOSEN_DAYS: usize = 4;
/// A day is dropped where its window sum times this is below the five sums.
pub const QUARTER_RULE_FACTOR: u64 = 20;

/// Voltage classes: 1 low, 2 high, 3 extra-high.
pub const CLASSES: usize = 3;
/// The whole, in hundredths of a percent.
pub const WHOLE: u16 = 10_000;
/// Highest loss, in hundredths of a percent (rule 5).
pub const HIGHEST_LOSS: u16 = 5_000;
/// Lowest and highest contract other than 0, in kW (rule 6).
pub const LOWEST_CONTRACT: u32 = 1_000;
/// See [`LOWEST_CONTRACT`].
pub const HIGHEST_CONTRACT: u32 = 10_000_000;
/// Highest count of points (rule 7).
pub const HIGHEST_COUNT: u32 = 10_000;
/// A slot total lies within this times the points taken (rule 9), in Wh.
pub const SLOT_TOTAL_OF_A_POINT: i128 = 4_000_000_000;
/// Highest baseline of a generator, in kW (rule 16).
pub const HIGHEST_GENERATOR_BASELINE: u32 = 1_000_000;
/// The whole, in tenths of a percent: no biomass share is above it (rule 50).
pub const WHOLE_SHARE: u16 = 1_000;
/// Highest reading, in Wh (rules 51 and 52).
pub const HIGHEST_READING: u32 = 1_000_000_000;

/// Baselines of consumers are counted in these parts of a Wh.
pub const PARTS_OF_A_WH: i128 = 24;
/// Half an hour at one kW, in Wh.
pub const WH_OF_A_KW_SLOT: i128 = 500;
/// Six half-hours at one kW, in Wh: the divisor of the total.
pub const WH_OF_A_SETTLED_KW: i128 = 3_000;
/// Lowest expected capacity that may bid, in kW.
pub const LOWEST_BID: i64 = 1_000;

/// Bytes of a tag with its length.
pub const FRONT_LENGTH: usize = 3;
/// Tag of the head.
pub const HEAD_TAG: u8 = 1;
/// Tag of the calendar.
pub const CALENDAR_TAG: u8 = 2;
/// Tag of a consumer.
pub const CONSUMER_TAG: u8 = 3;
/// Tag of a generator.
pub const GENERATOR_TAG: u8 = 4;
/// Tag of a mixed-firing plant.
pub const MIXED_FIRING_TAG: u8 = 5;
/// Bytes of a head value.
pub const HEAD_LENGTH: usize = 17;
/// Bytes of a calendar value.
pub const CALENDAR_LENGTH: usize = DAYS_BACK;
/// Bytes of a point number.
pub const NUMBER_LENGTH: usize = 22;
/// Readings of a consumer: the test day's, then those of the days back.
pub const CONSUMER_READINGS: usize = SLOTS_OF_A_DAY * (1 + DAYS_BACK);
/// Bytes of a reading.
pub const READING_LENGTH: usize = 4;
/// Bytes of a consumer value.
pub const CONSUMER_LENGTH: usize = 5_975;
/// Bytes of a generator value.
pub const GENERATOR_LENGTH: usize = 50;
/// Readings of a mixed-firing plant: six outside the feed-in tariff, six inside.
pub const MIXED_FIRING_READINGS: usize = 2 * WINDOW_SLOTS;
/// Bytes of a mixed-firing plant's value.
pub const MIXED_FIRING_LENGTH: usize = 72;
/// Bytes of a written head with its calendar.
pub const WRITTEN_HEAD_LENGTH: usize = 53;
/// Bytes of the result of a whole book, and of a record of the report.
pub const RESULT_LENGTH: usize = 64;
/// Bytes of a word of a result.
pub const WORD_LENGTH: usize = 8;

/// Most records of a report (rule 53).
pub const MOST_RECORDS: usize = 500;
/// The total of a record lies within this times its points (rule 54), in Wh.
pub const TOTAL_OF_A_POINT: i128 = 24_000_000_000;

/// "Twenty-two nines stand for a number not yet issued".
pub const NOT_YET_ISSUED: [u8; NUMBER_LENGTH] = [b'9'; NUMBER_LENGTH];
