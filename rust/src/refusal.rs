//! Refusals: a number of papers 01 and 02, and a line where the number carries one.

#[derive(Clone, Copy, PartialEq, Eq, Debug)]
pub struct Refusal {
    pub number: u8,
    /// The line for 1 to 9 and 51, counted from 1 (0 for number 1); else 0.
    pub line: u32,
}

impl Refusal {
    /// A refusal whose number carries no line.
    pub const fn plain(number: u8) -> Refusal {
        Refusal { number, line: 0 }
    }
}

/// 22: "path text, or path bytes given to the writer".
pub const PATH: Refusal = Refusal::plain(22);
/// 23: a result, a path's or a report's, "doesn't fit the lent buffer".
pub const BUFFER: Refusal = Refusal::plain(23);

/// The numbers of a table line, 2 to 9.
pub mod line {
    /// "not a hex line as above"
    pub const HEX: u8 = 2;
    /// "unknown kind or code byte, frame too short or long"
    pub const FRAME: u8 = 3;
    /// "order of kinds; empty text counts here, at line 1"
    pub const ORDER: u8 = 4;
    /// "a limit passed, or an empty string that may not be"
    pub const LIMIT: u8 = 5;
    /// "a byte outside its set (an `*` in an element or key name is 7)"
    pub const BYTE: u8 = 6;
    /// "wildcard misplaced, or `...`"
    pub const WILDCARD: u8 = 7;
    /// "group name, member in a group, rule id, or key in an element twice"
    pub const TWICE: u8 = 8;
    /// "group not listed"
    pub const UNLISTED: u8 = 9;
}

/// 1: "table text over 32,768 bytes (line 0)".
pub const TABLE_LONG: Refusal = Refusal::plain(1);
/// 20: "user or mode not as a table allows".
pub const USER_OR_MODE: Refusal = Refusal::plain(20);
/// 21: "origin likewise".
pub const ORIGIN: Refusal = Refusal::plain(21);

/// The numbers of a policy text, 30 to 38.
pub mod policy {
    /// "policy over 16,384 bytes"
    pub const LONG: u8 = 30;
    /// "not one JSON value (RFC 8259) in our bytes and depth"
    pub const JSON: u8 = 31;
    /// "member name twice in one object, compared as written"
    pub const MEMBER_TWICE: u8 = 32;
    /// "not the schema"
    pub const SCHEMA: u8 = 33;
    /// "backslash in a schema string"
    pub const BACKSLASH: u8 = 34;
    /// "a limit passed, or empty where not allowed"
    pub const LIMIT: u8 = 35;
    /// "asterisk"
    pub const ASTERISK: u8 = 36;
    /// "barred or ill-spelt header key"
    pub const HEADER_KEY: u8 = 37;
    /// "rule name twice in a list"
    pub const RULE_TWICE: u8 = 38;
}

/// 40: "identity or path over 256 bytes or a byte outside 0x20 to 0x7E".
pub const IDENTITY_OR_PATH: Refusal = Refusal::plain(40);
/// 41: "header lines ill-formed, a value byte outside that range, or over 8,192 bytes".
pub const HEADERS: Refusal = Refusal::plain(41);

/// 50: "the earliest log line that is number 1,000,001".
pub const LOG_LONG: Refusal = Refusal::plain(50);
/// 51: a log line that "isn't so framed or gets 20 to 22"; it carries its line.
pub const LOG_LINE: u8 = 51;

/// The numbers of the calls on the record, 11 to 16.
pub mod rotation {
    /// "store shorter than 65,536 bytes"
    pub const STORE: u8 = 11;
    /// "start while on"
    pub const ON: u8 = 12;
    /// "upload, finalize or close while off"
    pub const OFF: u8 = 13;
    /// "finalize without candidate"
    pub const NO_CANDIDATE: u8 = 14;
    /// "record: kind not 1 or 2, slot over 1, length over 32,768, candidate while off"
    pub const RECORD: u8 = 15;
    /// "RPC probe on a kind 2 record, path or tree probe on a kind 1 record"
    pub const KIND: u8 = 16;
}
