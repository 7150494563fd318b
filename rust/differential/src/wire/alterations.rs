//! Wrong answers that the comparison must report.

use super::WireQuery;
use crate::compare::Alteration;

pub const ALTERATIONS: [Alteration<WireQuery>; 7] = [
    Alteration {
        function: "component_connects",
        what: "nothing connects to the West",
        alter: |_, query, answer| {
            if let WireQuery::Connects(_, 4) = query {
                answer.number = 0;
            }
        },
    },
    Alteration {
        function: "infer_wire_connection",
        what: "an arm up is drawn to the side",
        alter: |_, _, answer| answer.number = answer.number.min(2),
    },
    Alteration {
        function: "resolved_wire_connection",
        what: "an arm None to the North counts as Side",
        alter: |_, query, answer| {
            if let WireQuery::Resolved(_, 1) = query {
                answer.number = answer.number.max(2);
            }
        },
    },
    Alteration {
        function: "dust_transfer",
        what: "nothing falls through a conductor",
        alter: |_, _, answer| answer.number %= 3,
    },
    Alteration {
        function: "dust_transfer",
        what: "a rise is taken for horizontal",
        alter: |_, _, answer| {
            if answer.number == 2 {
                answer.number = 1;
            }
        },
    },
    Alteration {
        function: "update_wire_shapes",
        what: "the first row's arm to the North differs",
        alter: |_, _, answer| {
            if let Some(arm) = answer.buffers[0].entries.get_mut(24) {
                *arm ^= 1;
            }
        },
    },
    Alteration {
        function: "update_wire_shapes",
        what: "a refused table is said to be redrawn",
        alter: |_, _, answer| answer.number = 0,
    },
];
