//! Wrong readings of the keys, which the tables by hand and those from seeds must tell from the right one.

use redstone::FARTHEST;

use super::keys::{Last, READING, Reading, level};

pub struct Misreading {
    pub what: &'static str,
    /// Makes the right reading the wrong one.
    pub change: fn(&mut Reading),
}

const fn misreading(what: &'static str, change: fn(&mut Reading)) -> Misreading {
    Misreading { what, change }
}

pub const MISREADINGS: [Misreading; 51] = [
    // What a key is.
    misreading("direct levels end at 14", |reading| reading.own = |direct| 16 * direct.min(14)),
    misreading("a direct level takes a hop", |reading| {
        reading.own = |direct| (16 * direct).saturating_sub(1)
    }),
    misreading("a hop takes no more than a level", |reading| {
        reading.given = |key| key.saturating_sub(16);
    }),
    misreading("a hop takes two of a round", |reading| reading.given = |key| key.saturating_sub(18)),
    misreading("a hop takes no level", |reading| reading.given = |key| key.saturating_sub(1)),
    misreading("a hop takes two levels", |reading| reading.given = |key| key.saturating_sub(33)),
    misreading("a hop brings the round back to the first", |reading| {
        reading.given = |key| 16 * (level(key) - 1);
    }),
    misreading("dust of level 1 gives it on", |reading| {
        reading.given = |key| key.saturating_sub(17).max(1);
        reading.levels = &[15, 14, 13, 12, 11, 10, 9, 8, 7, 6, 5, 4, 3, 2, 1];
    }),
    // Which key is kept.
    misreading("of one level the last key is kept", |reading| {
        reading.kept = |had, given| if level(given) >= level(had) { given } else { had };
    }),
    misreading("of one level the later round is kept", |reading| {
        reading.kept = |had, given| match level(given).cmp(&level(had)) {
            std::cmp::Ordering::Equal => had.min(given),
            _ => had.max(given),
        };
    }),
    misreading("the first key is kept", |reading| {
        reading.kept = |had, given| if had == 0 { given } else { had };
    }),
    misreading("the last key is kept", |reading| reading.kept = |_, given| given),
    misreading("a key is kept that is one higher at least", |reading| {
        reading.kept = |had, given| if given > had.saturating_add(1) { given } else { had };
    }),
    misreading("a dust that has a level of its own keeps it", |reading| {
        reading.kept = |had, given| if had > 0 && had.is_multiple_of(16) { had } else { had.max(given) };
    }),
    // Which levels are passed.
    misreading("level 15 is not passed", |reading| reading.levels = &READING.levels[1..]),
    misreading("level 2 is not passed", |reading| reading.levels = &READING.levels[..13]),
    misreading("levels 2 and 3 are not passed", |reading| reading.levels = &READING.levels[..12]),
    misreading("level 8 is not passed", |reading| {
        reading.levels = &[15, 14, 13, 12, 11, 10, 9, 7, 6, 5, 4, 3, 2];
    }),
    misreading("levels are passed from the lowest on", |reading| {
        reading.levels = &[2, 3, 4, 5, 6, 7, 8, 9, 10, 11, 12, 13, 14, 15];
    }),
    misreading("two levels are passed in the other order", |reading| {
        reading.levels = &[15, 14, 13, 12, 11, 10, 9, 8, 7, 6, 5, 4, 2, 3];
    }),
    misreading("level 15 alone is passed", |reading| reading.levels = &[15]),
    // The rounds of dust.
    misreading("the round is one more", |reading| {
        reading.round = |key| if key == 0 { 0 } else { 16 * level(key) + 2 - key };
    }),
    misreading("the round is one less", |reading| reading.round = |key| 16 * level(key) - key),
    misreading("dust without a level has a round", |reading| reading.round = |key| 16 * level(key) + 1 - key),
    misreading("the round is that of the level from 15 on", |reading| {
        reading.round = |key| if key == 0 { 0 } else { 16 - level(key) };
    }),
    misreading("the round is the level", |reading| reading.round = level),
    misreading("a level of 1 has no round", |reading| {
        reading.round = |key| if level(key) < 2 { 0 } else { 16 * level(key) + 1 - key };
    }),
    misreading("a level of 15 has no round", |reading| {
        reading.round = |key| if key == 0 || key > 224 { 0 } else { 16 * level(key) + 1 - key };
    }),
    // What a block shows.
    misreading("of one level the later counts at a block", |reading| {
        reading.shown = |one, other| match level(one).cmp(&level(other)) {
            std::cmp::Ordering::Equal => one.min(other),
            _ => one.max(other),
        };
    }),
    misreading("the last dust counts at a block", |reading| reading.shown = |_, other| other),
    misreading("the first dust counts at a block", |reading| reading.shown = |one, _| one),
    misreading("the earliest round counts at a block", |reading| {
        reading.shown = |one, other| {
            let by_round = [one, other].into_iter().min_by_key(|key| (READING.round)(*key));
            by_round.unwrap_or(one)
        };
    }),
    misreading("as much as is there without dust counts", |reading| {
        reading.counts = |block| block.key > 0 && level(block.key) >= block.base;
    }),
    misreading("all that dust gives counts", |reading| reading.counts = |block| block.key > 0),
    misreading("nothing counts where there is power without dust", |reading| {
        reading.counts = |block| block.base == 0;
    }),
    misreading("strong power hides, too", |reading| {
        reading.counts = |block| level(block.key) > block.base.max(block.strong);
    }),
    misreading("strong power alone hides", |reading| {
        reading.counts = |block| level(block.key) > block.strong;
    }),
    misreading("one more than is there counts not", |reading| {
        reading.counts = |block| level(block.key) > block.base + u8::from(block.base > 0);
    }),
    misreading("nothing counts at blocks", |reading| reading.counts = |_| false),
    // The rounds of all.
    misreading("an empty map takes a second round, too", |reading| {
        reading.rounds = |last| (1 + last.dust).max(2 + last.shown);
    }),
    misreading("a map takes no second round where no dust gives power", |reading| {
        reading.rounds = |last| (1 + last.dust).max(if last.shown > 0 { 2 + last.shown } else { 0 });
    }),
    misreading("a block is answered as dust is", |reading| {
        reading.rounds = |last| (1 + last.dust).max(if last.is_mapped { 1 + last.shown } else { 0 });
    }),
    misreading("with a map the blocks alone count", |reading| {
        reading.rounds = |last| if last.is_mapped { 2 + last.shown } else { 1 + last.dust };
    }),
    misreading("with a map every dust is shown", |reading| {
        reading.rounds = |last| if last.is_mapped { 2 + last.dust } else { 1 + last.dust };
    }),
    misreading("the dust alone counts", |reading| reading.rounds = |Last { dust, .. }| 1 + dust),
    misreading("the answering round is not counted", |reading| {
        reading.rounds = |last| (READING.rounds)(last).max(2) - 1;
    }),
    misreading("the map has the rows that receive weak power alone", |reading| {
        reading.is_mapped = |weak, _| weak;
    }),
    misreading("the map has the rows that receive strong power alone", |reading| {
        reading.is_mapped = |_, strong| strong;
    }),
    misreading("the map has the rows that receive both", |reading| {
        reading.is_mapped = |weak, strong| weak && strong;
    }),
    misreading("a limit of as many rounds is too low", |reading| {
        reading.is_enough = |limit, rounds| limit > rounds;
    }),
    misreading("a limit of one round less is enough", |reading| {
        reading.is_enough = |limit, rounds| limit + 1 >= rounds;
    }),
];

/// Wrong readings of where rows are, which show at the ends of the ground and at corners alone.
pub const MISPLACINGS: [Misreading; 9] = [
    misreading("a line goes on at the next cell above", |reading| {
        reading.place = |[x, y, z]| if z == -FARTHEST { [x, y - 1, FARTHEST + 1] } else { [x, y, z] };
    }),
    misreading("a line goes on at the next cell below", |reading| {
        reading.place = |[x, y, z]| if z == FARTHEST { [x, y + 1, -FARTHEST - 1] } else { [x, y, z] };
    }),
    misreading("a column goes on at the next cell to the East", |reading| {
        reading.place = |[x, y, z]| if y == -FARTHEST { [x - 1, FARTHEST + 1, z] } else { [x, y, z] };
    }),
    misreading("a column goes on at the next cell to the West", |reading| {
        reading.place = |[x, y, z]| if y == FARTHEST { [x + 1, -FARTHEST - 1, z] } else { [x, y, z] };
    }),
    misreading("coordinates have 20 bits", |reading| {
        reading.place = |at| at.map(|along| along.rem_euclid(1 << 20));
    }),
    misreading("the farthest cells have no neighbours", |reading| {
        reading.place = |at| at.map(|along| if along.abs() == FARTHEST { 2 * along } else { along });
    }),
    misreading("a support is one of the six cells beside", |reading| {
        reading.support = |step| {
            let steps = step.map(i32::from);
            (steps.iter().map(|along| along.abs()).sum::<i32>() == 1).then_some(steps)
        };
    }),
    misreading("a support is the cell below", |reading| {
        reading.support = |step| (step == [0, -1, 0]).then_some([0, -1, 0]);
    }),
    misreading("a support is another cell than its own", |reading| {
        reading.support = |step| (step != [0; 3]).then_some(step.map(i32::from));
    }),
];

/// Wrong readings of where else a search finds rows, which show at the ends of the ground alone.
pub const SEARCHES: [Misreading; 2] = [
    misreading("a search past the end of a line finds the next one", |reading| {
        reading.found = |[x, y, z]| match z {
            FARTHEST => Some([x, y + 1, -FARTHEST - 1]),
            _ => (z == -FARTHEST).then_some([x, y - 1, FARTHEST + 1]),
        };
    }),
    misreading("a search past the end of a column finds the next one", |reading| {
        reading.found = |[x, y, z]| match y {
            FARTHEST => Some([x + 1, -FARTHEST - 1, z]),
            _ => (y == -FARTHEST).then_some([x - 1, FARTHEST + 1, z]),
        };
    }),
];

/// Those of what is past the end of a line, which a full table of such ends must tell, too.
pub const LINES_GOING_ON: [&Misreading; 3] = [&SEARCHES[0], &MISPLACINGS[0], &MISPLACINGS[1]];
