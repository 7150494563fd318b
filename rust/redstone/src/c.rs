//! The calls of the static library.

/// Declares calls of the library, each with a function that lends it slices.
///
/// A parameter is one of `read name: T`, a slice that the call reads; `write name: T`, one that it may write; and
/// `pass name: T`, a number. A slice goes over as a pointer and a length.
macro_rules! calls {
    ($(fn $call:ident($($way:ident $name:ident: $type:ty),* $(,)?);)*) => {
        $(calls!(@each $call [] [] [] $($way $name: $type,)*);)*

        /// Each call with its parameters, for the test of the C header.
        #[cfg(test)]
        pub const DECLARED: &[(&str, &[Parameter])] = &[$((
            stringify!($call),
            &[$(Parameter {
                way: stringify!($way),
                name: stringify!($name),
                of: stringify!($type),
            }),*],
        )),*];
    };
    (@each $call:ident [$($safe:tt)*] [$($c:tt)*] [$($lent:tt)*] read $name:ident: $type:ty, $($rest:tt)*) => {
        calls!(
            @each $call
            [$($safe)* $name: &[$type],]
            [$($c)* _: *const $type, _: usize,]
            [$($lent)* $name.as_ptr(), $name.len(),]
            $($rest)*
        );
    };
    (@each $call:ident [$($safe:tt)*] [$($c:tt)*] [$($lent:tt)*] write $name:ident: $type:ty, $($rest:tt)*) => {
        calls!(
            @each $call
            [$($safe)* $name: &mut [$type],]
            [$($c)* _: *mut $type, _: usize,]
            [$($lent)* $name.as_mut_ptr(), $name.len(),]
            $($rest)*
        );
    };
    (@each $call:ident [$($safe:tt)*] [$($c:tt)*] [$($lent:tt)*] pass $name:ident: $type:ty, $($rest:tt)*) => {
        calls!(
            @each $call
            [$($safe)* $name: $type,]
            [$($c)* _: $type,]
            [$($lent)* $name,]
            $($rest)*
        );
    };
    (@each $call:ident [$($safe:tt)*] [$($c:tt)*] [$($lent:tt)*]) => {
        #[allow(clippy::too_many_arguments)]
        pub fn $call($($safe)*) -> u32 {
            unsafe extern "C" {
                fn $call($($c)*) -> u32;
            }
            // SAFETY: each pointer goes with the length of the slice that it is of. The call is proved to stay inside
            // the lent slices and to write only those that are lent to be written, which overlap no other, since they
            // are borrowed mutably; and it keeps none of them.
            unsafe { $call($($lent)*) }
        }
    };
}

/// A parameter of a call: `read`, `write` or `pass`, its name and its type.
#[cfg(test)]
pub struct Parameter {
    pub way: &'static str,
    pub name: &'static str,
    pub of: &'static str,
}

calls! {
    fn redstone_fresh(
        read profile: u8, read table: u8, write state: u8,
        write signal: u8, write weak: u8, write strong: u8,
    );
    fn redstone_settle(
        read profile: u8, read table: u8, read devices: u8, pass limit: u32,
        write signal: u8, write weak: u8, write strong: u8,
    );
    fn redstone_tick(
        read profile: u8, read table: u8, write state: u8, pass tick: u32, pass ticks: u32,
        write signal: u8, write weak: u8, write strong: u8,
    );
    fn redstone_switch(
        read profile: u8, write table: u8, read state: u8,
        pass x: i32, pass y: i32, pass z: i32, pass powered: u32,
        write signal: u8, write weak: u8, write strong: u8,
    );
    fn redstone_redraw(read profile: u8, write table: u8);
    fn redstone_supports(read profile: u8, read table: u8, write rows: u16);
    fn redstone_merge(
        read first: u8, read second: u8, pass dx: i32, pass dy: i32, pass dz: i32, write out: u8,
    );
    fn redstone_clear(read profile: u8, read table: u8, write kept: u8, write passes: u16);
    fn redstone_feeders(read profile: u8, read table: u8, write list: u16);
    fn redstone_replace(
        read profile: u8, write table: u8, pass row: u16, read new_row: u8, write list: u16,
    );
}
