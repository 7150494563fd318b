//! A hall's page: its pictures, charts, events and figures in one file that needs no other and no script.

mod chart;
mod layers;

use std::fmt::Write;

use redstone::Refusal;
use redstone_text::position_text;

use crate::event::events;
use crate::expect::Met;
use crate::hall::Hall;
use crate::name::{block_name, counted};
use crate::run::{Outlook, Run};
use crate::{Refused, hint};

const STYLE: &str = include_str!("page.css");

/// A page of a hall, with what its file expects beside what was given.
///
/// # Errors
///
/// None: no call refuses what it has accepted.
pub fn page(hall: &Hall, run: &Run, met: &[Met]) -> Result<String, Refusal> {
    let differing: Vec<_> = met.iter().filter(|met| !met.is_met).collect();
    let (class, verdict) = match (met.len(), differing.len()) {
        (0, _) => ("plain", "Nothing is expected".to_owned()),
        (all, 0) => ("good", format!("As expected: {}", counted(all, "expectation"))),
        (all, wrong) => ("differs", format!("DIFFERS: {wrong} of {}", counted(all, "expectation"))),
    };
    let mut body = head(&hall.name, class, &verdict);
    let hints = hint::hints(hall, run)?;
    facts(&mut body, run, hints.len());
    if !differing.is_empty() {
        body += "<section class=\"differences\">\n";
        expectations(&mut body, differing.iter().copied());
        body += "</section>\n";
    }
    pictures(&mut body, hall, run, &differing)?;
    body += "<section><h2>Ticks</h2>\n";
    body += &chart::charts(run, met);
    body += "</section>\n";
    event_list(&mut body, run);
    if !met.is_empty() {
        body += "<section><h2>Expectations</h2>\n";
        body += "<div class=\"columns\">\n";
        expectations(&mut body, met);
        body += "</div></section>\n";
    }
    hint_list(&mut body, &hints);
    figures(&mut body, run);
    Ok(document(&format!("{}: {verdict}", hall.name), &body))
}

/// A page of a file that holds no hall that can be run.
#[must_use]
pub fn refused_page(refused: &Refused) -> String {
    let mut body = head(&refused.file, "refused", "REFUSED");
    let _ = writeln!(body, "<p class=\"reason\">{}</p>", escape(&refused.to_string()));
    document(&format!("{}: REFUSED", refused.file), &body)
}

fn document(title: &str, body: &str) -> String {
    format!(
        "<!DOCTYPE html>\n<html lang=\"en\">\n<head>\n<meta charset=\"utf-8\"/>\n\
         <meta name=\"viewport\" content=\"width=device-width, initial-scale=1\"/>\n\
         <meta name=\"color-scheme\" content=\"light dark\"/>\n<title>{}</title>\n\
         <style>\n{STYLE}</style>\n</head>\n<body>\n{body}</body>\n</html>\n",
        escape(title)
    )
}

fn head(name: &str, class: &str, verdict: &str) -> String {
    let (name, verdict) = (escape(name), escape(verdict));
    format!("<header><h1>{name}</h1>\n<p class=\"verdict {class}\">{verdict}</p></header>\n")
}

fn facts(body: &mut String, run: &Run, hints: usize) {
    let rounds = run.frames[0].settled.rounds().get() as usize;
    let (blocks, rounds) = (counted(run.rows.len(), "block"), counted(rounds, "round"));
    let _ = writeln!(body, "<ul class=\"facts\">\n<li>{blocks}, settled in {rounds}</li>");
    let _ = writeln!(body, "<li>{}</li>", escape(&run.to_string()));
    for (row, tick) in &run.candidates {
        let torch = block_name(&run.rows[*row]);
        let _ = writeln!(body, "<li class=\"warn\">Burn-out candidate: {torch}, from tick {tick} on</li>");
    }
    for switch in &run.later {
        let _ = writeln!(body, "<li class=\"warn\">Not shown: tick {} switch {switch}</li>", switch.tick);
    }
    if hints > 0 {
        let hints = counted(hints, "hint");
        let _ = writeln!(body, "<li class=\"warn\">{hints}: the game is known to differ, see below</li>");
    }
    *body += "</ul>\n";
}

fn expectations<'a>(body: &mut String, met: impl IntoIterator<Item = &'a Met>) {
    *body += "<table class=\"expectations\">\n<tr><th>line</th><th>expected</th><th>given</th></tr>\n";
    for met in met {
        let (class, sign) = if met.is_met { ("met", "") } else { ("differs", "&#8800; ") };
        let (line, expected) = (met.expectation.line, escape(&met.expectation.to_string()));
        let given = escape(&met.given);
        let _ = writeln!(
            body,
            "<tr class=\"{class}\"><td>{line}</td><td>{expected}</td><td>{sign}{given}</td></tr>"
        );
    }
    *body += "</table>\n";
}

fn pictures(body: &mut String, hall: &Hall, run: &Run, differing: &[&Met]) -> Result<(), Refusal> {
    let unsupported = hall.fresh.unsupported()?;
    let marks = layers::Marks { unsupported: &unsupported, differing };
    let wide = if layers::is_wide(run) { " wide" } else { "" };
    let _ = writeln!(body, "<div class=\"sights{wide}\">\n<section><h2>Settled levels, tick 0</h2>");
    *body += &layers::pictures(run, 0, &marks);
    *body += "</section>\n";
    if let Some(last) = (0..run.frames.len()).rev().find(|tick| run.looks_different(0, *tick)) {
        let note = match run.outlook {
            Outlook::Still { from } if from as usize <= last => format!(", as from tick {from} on"),
            Outlook::Cycle { from, .. } if from as usize <= last => {
                ", one of those that come again and again".to_owned()
            }
            _ => ", the last that is not as tick 0".to_owned(),
        };
        let _ = writeln!(body, "<section><h2>Tick {last}{note}</h2>");
        *body += &layers::pictures(run, last, &marks);
        *body += "</section>\n";
    }
    *body += "</div>\n";
    *body += layers::LEGEND;
    Ok(())
}

fn event_list(body: &mut String, run: &Run) {
    *body += "<section><h2>Events</h2>\n<div class=\"events\">\n";
    let events = events(run);
    for event in &events {
        let _ = writeln!(body, "<p><b>tick {}</b> {}</p>", event.tick, escape(&event.to_string()));
    }
    if events.is_empty() {
        *body += "<p>none</p>\n";
    }
    *body += "</div></section>\n";
}

fn hint_list(body: &mut String, hints: &[hint::Hint]) {
    if hints.is_empty() {
        return;
    }
    *body += "<section class=\"hints\"><h2>Hints: where the game is known to differ</h2>\n";
    *body +=
        "<p>They change no figure of this page. The numbers are those of docs/DIFFERENCES.md.</p>\n<ul>\n";
    for hint in hints {
        let _ = writeln!(body, "<li><b>{}</b> {}</li>", hint.number, escape(&hint.to_string()));
    }
    *body += "</ul></section>\n";
}

fn figures(body: &mut String, run: &Run) {
    *body +=
        "<section><h2>All settled figures, tick 0</h2>\n<div class=\"columns\"><table class=\"figures\">\n";
    *body += "<thead><tr><th>x,y,z</th><th>kind</th><th>signal</th><th>weak</th><th>strong</th></tr></thead>\n<tbody>\n";
    for (number, row) in run.rows.iter().enumerate() {
        let figures = run.frames[0].figures(number);
        let (position, kind) = (position_text(row.position()), row.kind());
        let _ = writeln!(
            body,
            "<tr><td>{position}</td><td>{kind}</td><td>{}</td><td>{}</td><td>{}</td></tr>",
            figures.signal, figures.weak, figures.strong
        );
    }
    *body += "</tbody></table></div></section>\n";
}

/// A text with the marks of HTML taken for what they are.
fn escape(text: &str) -> String {
    let mut escaped = String::with_capacity(text.len());
    for letter in text.chars() {
        match letter {
            '&' => escaped += "&amp;",
            '<' => escaped += "&lt;",
            '>' => escaped += "&gt;",
            '"' => escaped += "&quot;",
            // No text has control characters but for line ends, and a file's name may have any.
            letter if letter.is_control() && letter != '\n' => escaped.push('\u{fffd}'),
            letter => escaped.push(letter),
        }
    }
    escaped
}

#[cfg(test)]
mod tests {
    use super::*;

    #[test]
    fn marks_of_html_are_taken_for_what_they_are() {
        assert_eq!(escape("a<b>&\"c\"\u{1b}[m\n"), "a&lt;b&gt;&amp;&quot;c&quot;\u{fffd}[m\n");
    }
}
