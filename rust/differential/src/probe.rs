//! The proved functions, called through the C interface of the static library `probe`.

use crate::generate::Case;
use crate::refusals::Refusal;

/// Declares a C function and a safe function of the same name over it. A slice goes over as a pointer and a length.
macro_rules! c_functions {
    ($(fn $name:ident($($parameters:tt)*) -> $answer:ty;)*) => {
        $(c_functions! { @take $name [] [] [] ($($parameters)*) $answer })*
    };
    (@take $name:ident [$($c:tt)*] [$($rust:tt)*] [$($passed:tt)*] () $answer:ty) => {
        #[inline]
        #[allow(clippy::too_many_arguments)]
        pub fn $name($($rust)*) -> $answer {
            unsafe extern "C" {
                fn $name($($c)*) -> $answer;
            }
            // SAFETY: the parameters are those of the library's function, whose slices are lent for the call alone
            // and whose proof keeps it inside of them.
            unsafe { $name($($passed)*) }
        }
    };
    (@take $name:ident [$($c:tt)*] [$($rust:tt)*] [$($passed:tt)*] ($slice:ident: &[$entry:ty] $(, $($rest:tt)*)?) $answer:ty) => {
        c_functions! { @take $name
            [$($c)* $slice: *const $entry, _: usize,] [$($rust)* $slice: &[$entry],]
            [$($passed)* $slice.as_ptr(), $slice.len(),] ($($($rest)*)?) $answer }
    };
    (@take $name:ident [$($c:tt)*] [$($rust:tt)*] [$($passed:tt)*] ($slice:ident: &mut [$entry:ty] $(, $($rest:tt)*)?) $answer:ty) => {
        c_functions! { @take $name
            [$($c)* $slice: *mut $entry, _: usize,] [$($rust)* $slice: &mut [$entry],]
            [$($passed)* $slice.as_mut_ptr(), $slice.len(),] ($($($rest)*)?) $answer }
    };
    (@take $name:ident [$($c:tt)*] [$($rust:tt)*] [$($passed:tt)*] ($number:ident: $type:ty $(, $($rest:tt)*)?) $answer:ty) => {
        c_functions! { @take $name
            [$($c)* $number: $type,] [$($rust)* $number: $type,]
            [$($passed)* $number,] ($($($rest)*)?) $answer }
    };
}

c_functions! {
    fn probe_check(profile: &[u8], table: &[u8]) -> u32;
    fn probe_find(table: &[u8], x: i32, y: i32, z: i32) -> u64;
    fn probe_kind_at(table: &[u8], x: i32, y: i32, z: i32) -> u32;
    fn probe_properties(profile: &[u8], kind: u32) -> u32;
    fn probe_traits(profile: &[u8], table: &[u8], row: u64) -> u32;
    fn probe_shape_of_name(name: &[u8], slab_type: &[u8], half: &[u8]) -> u32;
    fn probe_support_issues(profile: &[u8], table: &[u8], column: &mut [u16]) -> u32;
    fn probe_offset(x: i32, y: i32, z: i32, dx: i32, dy: i32, dz: i32, axis: u32) -> i32;
    fn probe_opposite(facing: u32) -> u32;
    fn probe_horizontal_offset(facing: u32, axis: u32) -> i32;
    fn probe_port(table: &[u8], x: i32, y: i32, z: i32, which: u32) -> u32;
    fn probe_port_coordinate(table: &[u8], x: i32, y: i32, z: i32, which: u32, axis: u32) -> i32;
    fn probe_component_connects(table: &[u8], x: i32, y: i32, z: i32, facing: u32) -> u32;
    fn probe_infer(profile: &[u8], table: &[u8], x: i32, y: i32, z: i32, facing: u32) -> u32;
    fn probe_resolved(profile: &[u8], table: &[u8], x: i32, y: i32, z: i32, facing: u32) -> u32;
    fn probe_transfer(profile: &[u8], table: &[u8], x: i32, y: i32, z: i32, x2: i32, y2: i32, z2: i32) -> u32;
    fn probe_redraw(profile: &[u8], table: &mut [u8]) -> u32;
    fn probe_settle_by_rounds(profile: &[u8], table: &[u8], devices: &[u8], limit: u32, signal: &mut [u8], weak: &mut [u8], strong: &mut [u8]) -> u32;
    fn redstone_clear(profile: &[u8], table: &[u8], kept: &mut [u8], passes: &mut [u16]) -> u32;
    fn redstone_feeders(profile: &[u8], table: &[u8], list: &mut [u16]) -> u32;
    fn redstone_merge(first: &[u8], second: &[u8], dx: i32, dy: i32, dz: i32, out: &mut [u8]) -> u32;
    fn redstone_redraw(profile: &[u8], table: &mut [u8]) -> u32;
    fn redstone_replace(profile: &[u8], table: &mut [u8], row: u16, new_row: &[u8], list: &mut [u16]) -> u32;
    fn redstone_switch(profile: &[u8], table: &mut [u8], state: &[u8], x: i32, y: i32, z: i32, powered: u32, signal: &mut [u8], weak: &mut [u8], strong: &mut [u8]) -> u32;
}

/// What `probe_find` answers where it finds no row.
pub const NOTHING_THERE: u64 = u64::MAX;

/// The number with which the C call under a call of the editor's crate answered.
pub fn answered(answer: Result<u32, redstone::Refusal>) -> u32 {
    answer.unwrap_or_else(|refusal| Refusal::from(refusal).code())
}

/// The proved side of a comparison.
pub struct Probe<'a>(pub &'a Case);
