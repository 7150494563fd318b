//! The calls that settle, of the library that is linked and of another one that is loaded.

use std::env;
use std::ffi::{CString, c_char, c_int, c_void};

use differential::settling::LIMIT;
use differential::table::Position;
use redstone::{Columns, Refusal, Rounds, fresh, settle, switch, tick};

/// The call's answer: the rounds.
type Answer = u32;

pub trait Library {
    fn settle(&self, profile: &[u8], table: &[u8], devices: &[u8], columns: Columns) -> Answer;
    fn fresh(&self, profile: &[u8], table: &[u8], state: &mut [u8], columns: Columns) -> Answer;
    fn tick(&self, profile: &[u8], table: &[u8], state: &mut [u8], ticks: u32, columns: Columns) -> Answer;
    fn switch(
        &self,
        profile: &[u8],
        table: &mut [u8],
        state: &[u8],
        thrown: (Position, bool),
        columns: Columns,
    ) -> Answer;
}

/// By the safe crate.
pub struct Now;

fn rounds(answer: Result<Rounds, Refusal>) -> Answer {
    answer.expect("what is timed is not refused").get()
}

impl Library for Now {
    fn settle(&self, profile: &[u8], table: &[u8], devices: &[u8], columns: Columns) -> Answer {
        rounds(settle(profile, table, devices, LIMIT, columns))
    }

    fn fresh(&self, profile: &[u8], table: &[u8], state: &mut [u8], columns: Columns) -> Answer {
        rounds(fresh(profile, table, state, columns))
    }

    fn tick(&self, profile: &[u8], table: &[u8], state: &mut [u8], ticks: u32, columns: Columns) -> Answer {
        rounds(tick(profile, table, state, 0, ticks, columns))
    }

    fn switch(
        &self,
        profile: &[u8],
        table: &mut [u8],
        state: &[u8],
        (at, powered): (Position, bool),
        columns: Columns,
    ) -> Answer {
        rounds(switch(profile, table, state, at, powered, columns))
    }
}

#[link(name = "dl")]
unsafe extern "C" {
    fn dlopen(file: *const c_char, mode: c_int) -> *mut c_void;
    fn dlsym(library: *mut c_void, name: *const c_char) -> *mut c_void;
}

const RTLD_NOW: c_int = 2;

/// A shared library, which is never closed.
struct Shared {
    path: String,
    library: *mut c_void,
}

impl Shared {
    fn open(path: String) -> Self {
        let file = CString::new(&path[..]).expect("a path without a zero");
        // SAFETY: the path ends with a zero.
        let library = unsafe { dlopen(file.as_ptr(), RTLD_NOW) };
        assert!(!library.is_null(), "{path} cannot be loaded");
        Self { path, library }
    }

    fn call(&self, name: &str) -> *mut c_void {
        let symbol = CString::new(name).expect("a name without a zero");
        // SAFETY: the library is open, and the name ends with a zero.
        let call = unsafe { dlsym(self.library, symbol.as_ptr()) };
        assert!(!call.is_null(), "{} has no {name}", self.path);
        call
    }
}

/// Declares the calls of a library that is loaded, each with a function that lends it slices, as in rust/redstone/src/c.rs.
macro_rules! calls {
    ($(fn $call:ident($($way:ident $name:ident: $type:ty),* $(,)?);)*) => {
        /// The library of before.
        pub struct Before {
            $($call: *mut c_void,)*
        }

        impl Before {
            fn of(library: &Shared) -> Self {
                Self { $($call: library.call(stringify!($call)),)* }
            }

            $(calls!(@each $call [] [] [] $($way $name: $type,)*);)*
        }
    };
    (@each $call:ident [$($safe:tt)*] [$($c:tt)*] [$($lent:tt)*] read $name:ident: $type:ty, $($rest:tt)*) => {
        calls!(
            @each $call
            [$($safe)* $name: &[$type],]
            [$($c)* *const $type, usize,]
            [$($lent)* $name.as_ptr(), $name.len(),]
            $($rest)*
        );
    };
    (@each $call:ident [$($safe:tt)*] [$($c:tt)*] [$($lent:tt)*] write $name:ident: $type:ty, $($rest:tt)*) => {
        calls!(
            @each $call
            [$($safe)* $name: &mut [$type],]
            [$($c)* *mut $type, usize,]
            [$($lent)* $name.as_mut_ptr(), $name.len(),]
            $($rest)*
        );
    };
    (@each $call:ident [$($safe:tt)*] [$($c:tt)*] [$($lent:tt)*] pass $name:ident: $type:ty, $($rest:tt)*) => {
        calls!(@each $call [$($safe)* $name: $type,] [$($c)* $type,] [$($lent)* $name,] $($rest)*);
    };
    (@each $call:ident [$($safe:tt)*] [$($c:tt)*] [$($lent:tt)*]) => {
        #[allow(clippy::too_many_arguments)]
        fn $call(&self, $($safe)*) -> u32 {
            type Call = unsafe extern "C" fn($($c)*) -> u32;
            // SAFETY: the parameters are those of the library's call, whose slices are lent for the call alone.
            unsafe { std::mem::transmute::<*mut c_void, Call>(self.$call)($($lent)*) }
        }
    };
}

calls! {
    fn redstone_settle(
        read profile: u8, read table: u8, read devices: u8, pass limit: u32,
        write signal: u8, write weak: u8, write strong: u8,
    );
    fn redstone_fresh(
        read profile: u8, read table: u8, write state: u8,
        write signal: u8, write weak: u8, write strong: u8,
    );
    fn redstone_tick(
        read profile: u8, read table: u8, write state: u8, pass tick: u32, pass ticks: u32,
        write signal: u8, write weak: u8, write strong: u8,
    );
    fn redstone_switch(
        read profile: u8, write table: u8, read state: u8,
        pass x: i32, pass y: i32, pass z: i32, pass powered: u32,
        write signal: u8, write weak: u8, write strong: u8,
    );
}

impl Before {
    /// The one that REDSTONE_BEFORE names, if it names any.
    pub fn named() -> Option<Self> {
        env::var("REDSTONE_BEFORE").ok().map(|path| Self::of(&Shared::open(path)))
    }
}

impl Library for Before {
    fn settle(&self, profile: &[u8], table: &[u8], devices: &[u8], columns: Columns) -> Answer {
        let Columns { signal, weak, strong } = columns;
        self.redstone_settle(profile, table, devices, LIMIT, signal, weak, strong)
    }

    fn fresh(&self, profile: &[u8], table: &[u8], state: &mut [u8], columns: Columns) -> Answer {
        let Columns { signal, weak, strong } = columns;
        self.redstone_fresh(profile, table, state, signal, weak, strong)
    }

    fn tick(&self, profile: &[u8], table: &[u8], state: &mut [u8], ticks: u32, columns: Columns) -> Answer {
        let Columns { signal, weak, strong } = columns;
        self.redstone_tick(profile, table, state, 0, ticks, signal, weak, strong)
    }

    fn switch(
        &self,
        profile: &[u8],
        table: &mut [u8],
        state: &[u8],
        ([x, y, z], powered): (Position, bool),
        columns: Columns,
    ) -> Answer {
        let Columns { signal, weak, strong } = columns;
        self.redstone_switch(profile, table, state, x, y, z, powered.into(), signal, weak, strong)
    }
}
