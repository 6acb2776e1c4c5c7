//! The numbers of document 01: its answers ("Order of checks"), and what several modules count by.

pub const ACCEPTED: u8 = 0;
pub const BAD_CALL: u8 = 1;
pub const BAD_STORE: u8 = 2;
pub const TOO_LONG: u8 = 3;
pub const CUT: u8 = 4;
pub const MALFORMED: u8 = 5;
pub const UNSUPPORTED: u8 = 6;
pub const UNKNOWN: u8 = 7;
pub const WITHDRAWN: u8 = 8;
pub const OTHER_CERTIFICATE: u8 = 9;
pub const WRONG_KIND: u8 = 10;
pub const NOT_PERMITTED: u8 = 11;
pub const OUTSIDE_PERIOD: u8 = 12;
pub const OUTSIDE_PLACE: u8 = 13;
pub const OUT_OF_DATE: u8 = 14;
pub const SIGNATURE: u8 = 15;
pub const FULL: u8 = 16;
pub const ALREADY_HELD: u8 = 17;
pub const CHAIN_TOO_LONG: u8 = 18;

/// "Verdict bytes: 1 good, any other bad."
pub const GOOD_VERDICT: u8 = 1;

/// "Kinds read: 1 ticket, 2 authority, 4 root."
pub const TICKET: u8 = 1;
pub const AUTHORITY: u8 = 2;
pub const ROOT: u8 = 4;

/// "State 0 empty, 1 held, 2 withdrawn."
pub const STATE_EMPTY: u8 = 0;
pub const STATE_HELD: u8 = 1;
pub const STATE_WITHDRAWN: u8 = 2;

/// "13,568 octets: 64 slots of 212."
pub const STORE_LENGTH: usize = 13_568;
pub const SLOT_LENGTH: usize = 212;
pub const SLOTS: usize = 64;

/// "Name vector (0 to 32 octets)"
pub const MAXIMUM_NAME: usize = 32;
/// "2 with 1 to 4 rectangles"
pub const MAXIMUM_RECTANGLES: usize = 4;
/// "0 to 16 permissions"
pub const MAXIMUM_PERMISSIONS: usize = 16;

/// "This was the eighth certificate, 18"
pub const MAXIMUM_CHAIN: usize = 8;

/// "The latest end is 4,294,967,295 + 8,191 × 31,556,925 = 262,777,739,970."
pub const LATEST_END: u64 = 262_777_739_970;

/// "-900,000,000 to 900,000,000 and -1,800,000,000 to 1,800,000,000"
pub const LATITUDE_LIMIT: i32 = 900_000_000;
pub const LONGITUDE_LIMIT: i32 = 1_800_000_000;

/// "Time64 microseconds": how many make a second.
pub const MICROSECONDS: u64 = 1_000_000;
