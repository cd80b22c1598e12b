//! The limits of papers 01 and 02. `tests/limits.sh` of the repository compares them with those of the proved crates.

/// "Rule table text: at most 32,768 bytes."
pub const TABLE_TEXT: usize = 32_768;
/// "At most 64 groups, 512 members, 256 rules".
pub const GROUPS: usize = 64;
pub const MEMBERS: usize = 512;
pub const RULES: usize = 256;
/// "16 elements".
pub const ELEMENTS: usize = 16;
/// "4 keys an element".
pub const KEYS: usize = 4;
/// "Version, id and origin have at most 32 bytes; other strings 64".
pub const SHORT_STRING: usize = 32;
pub const LONG_STRING: usize = 64;

/// "The longest path bytes are 9,377, the longest path text 13,520."
pub const PATH_BYTES: usize = 9_377;
pub const PATH_TEXT: usize = 13_520;

/// 2026-01: "the earliest log line that is number 1,000,001".
pub const LOG_LINES: usize = 1_000_000;
/// The longest frame of a good log line: mode, S user, S origin, path.
pub const LOG_FRAME: usize = 1 + (1 + LONG_STRING) + (1 + SHORT_STRING) + PATH_BYTES;
/// 2026-01: "The report is 262 decimal lines": one for each rule, and the grid of two modes against three outcomes.
pub const REPORT_LINES: usize = RULES + 2 * 3;
/// A report that always fits: each number of as many digits as 1,000,000 has, and its LF.
pub const REPORT: usize = REPORT_LINES * 8;

/// "Text is at most 16,384 bytes", "objects and lists may nest to depth 16".
pub const POLICY_TEXT: usize = 16_384;
pub const JSON_DEPTH: usize = 16;
/// "At most 64 rules a list, 32 entries in any other list, 256 bytes a string".
pub const POLICY_RULES: usize = 64;
pub const POLICY_ENTRIES: usize = 32;
pub const POLICY_STRING: usize = 256;

/// "identity or path over 256 bytes"; header lines "over 8,192 bytes together".
pub const REQUEST_STRING: usize = 256;
pub const HEADER_LINES: usize = 8_192;

/// "the store is two slots of 32,768 bytes"
pub const SLOT: usize = 32_768;
