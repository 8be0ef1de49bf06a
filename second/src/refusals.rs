//! The refusal numbers of 01, with 4 and 5 as M-101 and M-100 of 02 have them, 3 for a
//! saturation pressure too (M-103), and 9 for a number of halvings too (M-104).

/// A refusal, by its number.
#[derive(Clone, Copy, Debug, PartialEq, Eq)]
pub struct Refusal(pub u8);

/// An input is NaN or infinite.
pub const NOT_FINITE: Refusal = Refusal(1);
/// p out of range.
pub const PRESSURE: Refusal = Refusal(2);
/// T outside 273.15 to 2273.15; of a saturation pressure, outside 273.15 to 647.096.
pub const TEMPERATURE: Refusal = Refusal(3);
/// T above 1073.15 and p above 50.
pub const HOT_AND_HIGH: Refusal = Refusal(4);
/// Region 3, from (p,h) or (p,s).
pub const REGION_3: Refusal = Refusal(5);
/// h or s out of range at p.
pub const OUT_OF_RANGE: Refusal = Refusal(6);
/// (h,s) fits no region.
pub const NO_REGION: Refusal = Refusal(7);
/// A wet state where one phase is needed, or a denominator zero or not finite.
pub const NOT_SINGLE: Refusal = Refusal(8);
/// Unknown caller, kind or property number, or a number of halvings outside 10 to 50.
pub const UNKNOWN: Refusal = Refusal(9);
/// Four tickets open.
pub const FOUR_OPEN: Refusal = Refusal(10);
/// Ticket not open for this caller.
pub const NOT_OPEN: Refusal = Refusal(11);
/// Not ready.
pub const NOT_READY: Refusal = Refusal(12);
/// 1,000,000 tickets given to this caller.
pub const TICKETS_SPENT: Refusal = Refusal(13);
/// The desk isn't sound.
pub const NOT_SOUND: Refusal = Refusal(15);
/// A sheet shorter than its trailer.
pub const SHORT_SHEET: Refusal = Refusal(20);
/// Version not 1 or last word not 0.
pub const VERSION: Refusal = Refusal(21);
/// Too many rows.
pub const ROW_COUNT: Refusal = Refusal(22);
/// Distance, note or row bytes of a wrong length.
pub const LENGTHS: Refusal = Refusal(23);
/// A row's kind outside 1 to 4.
pub const ROW_KIND: Refusal = Refusal(24);
/// Room too short for the sheet.
pub const ROOM: Refusal = Refusal(25);
