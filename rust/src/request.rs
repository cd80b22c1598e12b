//! A request for a path: "a user, a mode, an origin and path text".

use crate::charset::is_printable;
use crate::frame::{Mode, PathAt, Paths, Taker};
use crate::limits;
use crate::path::path_bytes;
use crate::refusal::{Refusal, ORIGIN, USER_OR_MODE};
use crate::table::is_user;

/// A request as the daemon gives it.
#[derive(Clone, Copy, Debug)]
pub struct PathRequest<'r> {
    pub user: &'r [u8],
    pub mode: u32,
    pub origin: &'r [u8],
    pub path: &'r [u8],
}

/// A request without faults.
pub struct Asked<'r> {
    pub user: &'r [u8],
    pub mode: Mode,
    pub origin: &'r [u8],
    pub paths: Paths<'r>,
    pub path: PathAt,
}

impl PathRequest<'_> {
    /// Hands the request on where it has no fault; else "the smallest number".
    pub fn judge<R>(&self, then: impl FnOnce(&Asked) -> R) -> Result<R, Refusal> {
        let mode = judge_asker(self.user, self.mode, self.origin)?;
        let bytes = path_bytes(self.path)?;
        let mut paths = Paths::default();
        let path = paths.take(&mut Taker::new(&bytes)).expect("path bytes read as a path");
        Ok(then(&Asked { user: self.user, mode, origin: self.origin, paths, path }))
    }
}

/// The mode of a request whose user, mode and origin are as a table allows; else the smaller of 20 and 21.
pub fn judge_asker(user: &[u8], mode: u32, origin: &[u8]) -> Result<Mode, Refusal> {
    let mode = match mode {
        1 => Mode::Read,
        2 => Mode::Write,
        _ => return Err(USER_OR_MODE),
    };
    if !is_user(user) {
        return Err(USER_OR_MODE);
    }
    if !is_origin(origin) {
        return Err(ORIGIN);
    }
    Ok(mode)
}

/// An origin as a table allows: up to 32 bytes of 0x20 to 0x7E.
fn is_origin(origin: &[u8]) -> bool {
    origin.len() <= limits::SHORT_STRING && origin.iter().all(|b| is_printable(*b))
}
