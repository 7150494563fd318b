//! Wrong readings of Change 4, which the comparison must report.

use super::{Bulb, Power, READING, Reading};

pub struct Misreading {
    pub what: &'static str,
    pub reading: Reading,
}

pub const MISREADINGS: [Misreading; 32] = [
    ticked("the light flips at every tick with power", |bulb, tick| {
        flipped_if(tick.after.is_there(), bulb, tick.after)
    }),
    ticked("the light flips when power leaves", |bulb, tick| {
        flipped_if(!tick.after.is_there() && bulb.had_power, bulb, tick.after)
    }),
    ticked("the light flips when power leaves, too", |bulb, tick| {
        flipped_if(tick.after.is_there() != bulb.had_power, bulb, tick.after)
    }),
    ticked("byte 9 is written before the flip, so that none comes", |bulb, tick| {
        flipped_if(false, bulb, tick.after)
    }),
    ticked("power gives light, and none takes it", |bulb, tick| {
        let ticked = (READING.tick)(bulb, tick);
        Bulb { light: ticked.light || bulb.light, ..ticked }
    }),
    ticked("the light is the power", |_, tick| {
        let power = tick.after.is_there();
        Bulb { light: power, ticks_left: 0, had_power: power }
    }),
    ticked("the light is a lamp's", |bulb, tick| {
        let power = tick.after.is_there();
        afterglow(Bulb { light: bulb.light || power, had_power: power, ..bulb })
    }),
    ticked("without power the light goes out two ticks later", |bulb, tick| {
        afterglow((READING.tick)(bulb, tick))
    }),
    ticked("weak power alone counts", |bulb, tick| by_power(bulb, tick.after.weak > 0)),
    ticked("strong power alone counts", |bulb, tick| by_power(bulb, tick.after.strong > 0)),
    ticked("both powers are needed", |bulb, tick| {
        by_power(bulb, tick.after.weak > 0 && tick.after.strong > 0)
    }),
    ticked("a power of 1 does not count", |bulb, tick| {
        by_power(bulb, tick.after.weak > 1 || tick.after.strong > 1)
    }),
    ticked("power counts before the tick settles", |bulb, tick| by_power(bulb, tick.before.is_there())),
    ticked("byte 9 is the power before the tick", |bulb, tick| {
        let had_power = tick.before.is_there();
        Bulb { had_power, ..(READING.tick)(bulb, tick) }
    }),
    ticked("byte 9 is not written", |bulb, tick| Bulb {
        had_power: bulb.had_power,
        ..(READING.tick)(bulb, tick)
    }),
    ticked("byte 9 is written with a flip alone", |bulb, tick| {
        let ticked = (READING.tick)(bulb, tick);
        Bulb { had_power: ticked.had_power || bulb.had_power, ..ticked }
    }),
    ticked("byte 9 is cleared by a flip", |bulb, tick| {
        let ticked = (READING.tick)(bulb, tick);
        Bulb { had_power: ticked.had_power && ticked.light == bulb.light, ..ticked }
    }),
    ticked("byte 9 is the light", |bulb, tick| {
        let ticked = (READING.tick)(bulb, tick);
        Bulb { had_power: ticked.light, ..ticked }
    }),
    ticked("of many ticks in a call the last alone counts", |bulb, tick| {
        if tick.left > 0 { bulb } else { (READING.tick)(bulb, tick) }
    }),
    fresh("fresh byte 9 is 0", |powered, power| Bulb { had_power: false, ..(READING.fresh)(powered, power) }),
    fresh("fresh byte 9 is 1", |powered, power| Bulb { had_power: true, ..(READING.fresh)(powered, power) }),
    fresh("fresh byte 9 comes from powered", |powered, power| Bulb {
        had_power: powered == Some(true),
        ..(READING.fresh)(powered, power)
    }),
    fresh("fresh light comes from settled power", |_, power| Bulb {
        light: power.is_there(),
        ticks_left: 0,
        had_power: power.is_there(),
    }),
    fresh("fresh light comes from powered or settled power", |powered, power| Bulb {
        light: powered == Some(true) || power.is_there(),
        ..(READING.fresh)(powered, power)
    }),
    fresh("settled power flips the fresh light", |powered, power| Bulb {
        light: (powered == Some(true)) != power.is_there(),
        ..(READING.fresh)(powered, power)
    }),
    fresh("fresh light is on where powered is missing", |powered, power| Bulb {
        light: powered != Some(false),
        ..(READING.fresh)(powered, power)
    }),
    fresh("fresh light is off", |powered, power| Bulb { light: false, ..(READING.fresh)(powered, power) }),
    Misreading {
        what: "a switch writes byte 9",
        reading: Reading {
            switch: |bulb, switch| Bulb { had_power: switch.after.is_there(), ..bulb },
            ..READING
        },
    },
    Misreading {
        what: "a switch flips the light, too",
        reading: Reading { switch: |bulb, switch| by_power(bulb, switch.after.is_there()), ..READING },
    },
    Misreading {
        what: "a switch at the bulb sets its light",
        reading: Reading {
            switch: |bulb, switch| Bulb { light: switch.own.unwrap_or(bulb.light), ..bulb },
            ..READING
        },
    },
    Misreading {
        what: "no ticks write byte 9",
        reading: Reading { no_tick: |bulb, power| Bulb { had_power: power.is_there(), ..bulb }, ..READING },
    },
    Misreading {
        what: "no ticks flip the light, too",
        reading: Reading { no_tick: |bulb, power| by_power(bulb, power.is_there()), ..READING },
    },
];

const fn ticked(what: &'static str, tick: fn(Bulb, super::Tick) -> Bulb) -> Misreading {
    Misreading { what, reading: Reading { tick, ..READING } }
}

const fn fresh(what: &'static str, fresh: fn(Option<bool>, Power) -> Bulb) -> Misreading {
    Misreading { what, reading: Reading { fresh, ..READING } }
}

/// Byte 9 written rightly, after a flip or none.
fn flipped_if(flips: bool, bulb: Bulb, after: Power) -> Bulb {
    Bulb { light: bulb.light != flips, had_power: after.is_there(), ..bulb }
}

/// Flip and byte 9 by other power than the one that is there.
fn by_power(bulb: Bulb, power: bool) -> Bulb {
    Bulb { light: bulb.light != (power && !bulb.had_power), had_power: power, ..bulb }
}

/// A lit bulb without power counts two ticks down and goes out, as a lamp does.
fn afterglow(bulb: Bulb) -> Bulb {
    match (bulb.light && !bulb.had_power, bulb.ticks_left) {
        (false, _) => Bulb { ticks_left: 0, ..bulb },
        (true, 0) => Bulb { ticks_left: 2, ..bulb },
        (true, 1) => Bulb { light: false, ticks_left: 0, ..bulb },
        (true, left) => Bulb { ticks_left: left - 1, ..bulb },
    }
}
