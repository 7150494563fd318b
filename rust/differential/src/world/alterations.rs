//! Wrong answers that the comparison must report.

use redstone::ROW_BYTES;

use super::{Name, WorldQuery};
use crate::compare::Alteration;

pub const ALTERATIONS: [Alteration<WorldQuery>; 14] = [
    Alteration {
        function: "find",
        what: "row 3 is found as row 4",
        alter: |_, _, answer| {
            if answer.number == 3 {
                answer.number = 4;
            }
        },
    },
    Alteration {
        function: "find",
        what: "where nothing is, the first row is found",
        alter: |_, _, answer| {
            if answer.number == i128::from(u64::MAX) {
                answer.number = 0;
            }
        },
    },
    Alteration {
        function: "kind_at",
        what: "a piston is taken for air",
        alter: |_, _, answer| answer.number %= 12,
    },
    Alteration {
        function: "kind_at",
        what: "a bulb is taken for air",
        alter: |_, _, answer| answer.number %= 13,
    },
    Alteration {
        function: "properties",
        what: "a bulb has none",
        alter: |_, query, answer| {
            if let WorldQuery::Properties(13) = query {
                answer.number = 0;
            }
        },
    },
    Alteration {
        function: "properties",
        what: "a kind's low byte alone counts",
        alter: |case, query, answer| {
            if let WorldQuery::Properties(257) = query {
                answer.number = case.profile[1].into();
            }
        },
    },
    Alteration {
        function: "redstone_traits",
        what: "a double slab conducts no weak power",
        alter: |case, query, answer| {
            if shape(&case.table, query) == 3 {
                answer.number ^= 2;
            }
        },
    },
    Alteration {
        function: "redstone_traits",
        what: "dust rises on top stairs by an arm up",
        alter: |case, query, answer| {
            if shape(&case.table, query) == 5 {
                answer.number += 32;
            }
        },
    },
    Alteration {
        function: "shape_of_name",
        what: "tinted glass is plain",
        alter: |_, query, answer| {
            if let WorldQuery::ShapeOfName(Name { name, .. }) = query
                && name == b"minecraft:tinted_glass"
            {
                answer.number = 0;
            }
        },
    },
    Alteration {
        function: "support_issues",
        what: "the last entry is dropped",
        alter: |_, _, answer| {
            if answer.number > 0 && answer.refusal().is_none() {
                answer.number -= 1;
            }
        },
    },
    Alteration {
        function: "support_issues",
        what: "the entry before the column is written",
        alter: |_, _, answer| answer.buffers[0].outside.push((-1, 0)),
    },
    Alteration {
        function: "offset",
        what: "a sum past the end wraps round",
        alter: |_, query, answer| {
            if let WorldQuery::Offset { from, by, axis: 0 } = query {
                answer.number = from[0].wrapping_add(by[0]).into();
            }
        },
    },
    Alteration {
        function: "opposite",
        what: "down is the opposite of down",
        alter: |_, query, answer| {
            if let WorldQuery::Opposite(6) = query {
                answer.number = 6;
            }
        },
    },
    Alteration {
        function: "horizontal_offset",
        what: "up has an offset",
        alter: |_, query, answer| {
            if let WorldQuery::HorizontalOffset { facing: 5, .. } = query {
                answer.number = 0;
            }
        },
    },
];

fn shape(table: &[u8], query: &WorldQuery) -> u8 {
    match query {
        WorldQuery::Traits(row) => table[ROW_BYTES * row + 28],
        _ => 0,
    }
}
