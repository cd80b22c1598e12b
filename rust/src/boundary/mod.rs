//! The C boundary of the proved library, one file for each part of it.
//!
//! Every wrapper gives the 64-bit answer word as it came; `word` reads it. The
//! library itself is named in `build.rs`.

/// Declares a call of the library with a wrapper in Rust. The parameters are
///
/// - `bytes`, a slice to read, and `buffer`, one to store to: a pointer and a length in C;
/// - `record`, lent to be changed, and `numbers`, the five of a record;
/// - `path_request` and `rpc_request`, with their parts in order.
macro_rules! call {
    ($wrapper:ident = $function:ident($($kind:ident $name:ident),*)) => {
        call!(@ $wrapper $function () () () $($kind $name,)*);
    };
    (@ $wrapper:ident $function:ident ($($parameter:tt)*) ($($declared:tt)*) ($($given:tt)*)) => {
        pub fn $wrapper($($parameter)*) -> u64 {
            extern "C" {
                fn $function($($declared)*) -> u64;
            }
            // SAFETY: a record is lent, and every pointer comes from a slice with the
            // length beside it; no two of them overlap where one is stored to.
            unsafe { $function($($given)*) }
        }
    };
    (@ $w:ident $f:ident ($($p:tt)*) ($($d:tt)*) ($($g:tt)*) bytes $name:ident, $($rest:tt)*) => {
        call!(@ $w $f ($($p)* $name: &[u8],) ($($d)* _: *const u8, _: usize,)
            ($($g)* $name.as_ptr(), $name.len(),) $($rest)*);
    };
    (@ $w:ident $f:ident ($($p:tt)*) ($($d:tt)*) ($($g:tt)*) buffer $name:ident, $($rest:tt)*) => {
        call!(@ $w $f ($($p)* $name: &mut [u8],) ($($d)* _: *mut u8, _: usize,)
            ($($g)* $name.as_mut_ptr(), $name.len(),) $($rest)*);
    };
    (@ $w:ident $f:ident ($($p:tt)*) ($($d:tt)*) ($($g:tt)*) record $name:ident, $($rest:tt)*) => {
        call!(@ $w $f ($($p)* $name: &mut Record,) ($($d)* _: *mut Record,) ($($g)* $name,) $($rest)*);
    };
    (@ $w:ident $f:ident ($($p:tt)*) ($($d:tt)*) ($($g:tt)*) numbers $name:ident, $($rest:tt)*) => {
        call!(@ $w $f ($($p)* $name: &Record,) ($($d)* _: u32, _: u32, _: u32, _: u32, _: u32,)
            ($($g)* $name.kind, $name.live_slot, $name.live_len, $name.rotating, $name.candidate_len,) $($rest)*);
    };
    (@ $w:ident $f:ident ($($p:tt)*) ($($d:tt)*) ($($g:tt)*) path_request $name:ident, $($rest:tt)*) => {
        call!(@ $w $f ($($p)* $name: &PathRequest,)
            ($($d)* _: *const u8, _: usize, _: u32, _: *const u8, _: usize, _: *const u8, _: usize,)
            ($($g)* $name.user.as_ptr(), $name.user.len(), $name.mode, $name.origin.as_ptr(), $name.origin.len(),
                $name.path.as_ptr(), $name.path.len(),) $($rest)*);
    };
    (@ $w:ident $f:ident ($($p:tt)*) ($($d:tt)*) ($($g:tt)*) rpc_request $name:ident, $($rest:tt)*) => {
        call!(@ $w $f ($($p)* $name: &RpcRequest,)
            ($($d)* _: *const u8, _: usize, _: *const u8, _: usize, _: *const u8, _: usize,)
            ($($g)* $name.identity.as_ptr(), $name.identity.len(), $name.path.as_ptr(), $name.path.len(),
                $name.headers.as_ptr(), $name.headers.len(),) $($rest)*);
    };
}

pub mod path;
pub mod policy;
pub mod rotation;
pub mod rpc;
pub mod season;
pub mod table;
pub mod verdict;

/// The calls that the C header declares, without `burgee_`, in its order.
pub fn declared_calls() -> Vec<&'static str> {
    let header = include_str!("../../../include/burgee.h");
    let declared = |line: &'static str| line.strip_prefix("uint64_t burgee_")?.split('(').next();
    header.lines().filter_map(declared).collect()
}
