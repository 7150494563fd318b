//! The pages of `hall report`: well-formed, and with the numbers of the columns.

use std::collections::BTreeMap;

use crate::support::{file, hall, samples};

/// An element's start: its name and its attributes.
struct Element {
    name: String,
    attributes: BTreeMap<String, String>,
}

/// The elements of a page in the order of their starts, each with the text directly after it. Panics where the page is not
/// well-formed.
fn elements(page: &str) -> Vec<(Element, String)> {
    let mut rest = page.strip_prefix("<!DOCTYPE html>\n").expect("a document type");
    let (mut open, mut found): (Vec<String>, Vec<(Element, String)>) = (Vec::new(), Vec::new());
    while let Some(at) = rest.find('<') {
        let (text, from) = rest.split_at(at);
        assert_text(text);
        if let Some(last) = found.last_mut().filter(|last| last.1.is_empty()) {
            last.1 = text.to_owned();
        }
        let (tag, after) = from[1..].split_once('>').expect("the end of a tag");
        rest = after;
        if let Some(name) = tag.strip_prefix('/') {
            assert_eq!(open.pop().as_deref(), Some(name), "an element that is not open is closed");
            continue;
        }
        let (tag, is_empty) = tag.strip_suffix('/').map_or((tag, false), |tag| (tag, true));
        let element = element(tag);
        if !is_empty {
            open.push(element.name.clone());
        }
        if element.name == "style" {
            rest = &rest[rest.find("</style>").expect("the end of the style")..];
        }
        found.push((element, String::new()));
    }
    assert_eq!((rest.trim(), open.as_slice()), ("", &[][..]), "all elements are closed");
    found
}

fn element(tag: &str) -> Element {
    let (name, mut rest) = tag.split_once(' ').unwrap_or((tag, ""));
    assert!(!name.is_empty() && name.chars().all(|letter| letter.is_ascii_alphanumeric()), "<{tag}>");
    let mut attributes = BTreeMap::new();
    while !rest.is_empty() {
        let (name, value) = rest.split_once("=\"").unwrap_or_else(|| panic!("<{tag}>"));
        let (value, after) = value.split_once('"').unwrap_or_else(|| panic!("<{tag}>"));
        assert_text(value);
        assert!(attributes.insert(name.to_owned(), value.to_owned()).is_none(), "{name} twice in <{tag}>");
        rest = after.strip_prefix(' ').unwrap_or(after);
    }
    Element { name: name.to_owned(), attributes }
}

/// Each `&` begins a reference that is known.
fn assert_text(text: &str) {
    for part in text.split('&').skip(1) {
        let known = ["amp;", "lt;", "gt;", "quot;", "#8800;"];
        assert!(known.iter().any(|name| part.starts_with(name)), "&{part}");
    }
}

/// The lines of `hall csv`, as fields.
fn figures(name: &str) -> Vec<Vec<String>> {
    let done = hall(&["csv", name]);
    done.text().lines().skip(1).map(|line| line.split(',').map(str::to_owned).collect()).collect()
}

/// All figures of a page, beside those of the columns.
fn assert_page(name: &str) {
    let done = hall(&["report", name]);
    let page = done.text();
    let elements = elements(page);
    let csv = figures(name);
    let of_tick = |tick: &str| csv.iter().filter(move |fields| fields[0] == tick).collect::<Vec<_>>();

    // The table of settled figures.
    let cells: Vec<_> = {
        let from = page.split_once("<table class=\"figures\">").expect("the table of figures").1;
        from.split("<td>").skip(1).map(|cell| cell.split('<').next().expect("a cell").to_owned()).collect()
    };
    let settled: Vec<_> = of_tick("0")
        .iter()
        .flat_map(|fields| {
            let position = fields[1..4].join(",");
            [position, fields[4].clone(), fields[5].clone(), fields[6].clone(), fields[7].clone()]
        })
        .collect();
    assert_eq!(cells, settled, "{name}");

    // The pictures: of tick 0, and of another tick where it looks different.
    let mut tick = String::new();
    let mut drawn: BTreeMap<String, Vec<Vec<String>>> = BTreeMap::new();
    for (element, text) in &elements {
        if let Some(label) = element.attributes.get("aria-label").filter(|label| label.starts_with("layer")) {
            tick = label.rsplit(' ').next().expect("a tick").to_owned();
        }
        if let Some(at) = element.attributes.get("data-at") {
            let figures = element.attributes["data-figures"].split(',').map(str::to_owned);
            drawn.entry(tick.clone()).or_default().push([at.to_owned()].into_iter().chain(figures).collect());
        }
        let class = element.attributes.get("class").map_or("", String::as_str);
        if element.name == "text" && class.starts_with("number l") {
            assert_eq!(class, format!("number l{text}"));
            let row = drawn[&tick].last().expect("a cell");
            assert_eq!(row[1], *text, "the number that is drawn is the signal");
        }
    }
    assert!(drawn.contains_key("0") && drawn.len() <= 2, "{name}");
    for (tick, mut cells) in drawn {
        let mut given: Vec<_> = of_tick(&tick)
            .iter()
            .map(|fields| {
                vec![fields[1..4].join(","), fields[5].clone(), fields[6].clone(), fields[7].clone()]
            })
            .collect();
        cells.sort();
        given.sort();
        assert_eq!(cells, given, "{name}, tick {tick}");
    }

    // The chart: what each device gives, tick by tick.
    for (element, _) in elements.iter().filter(|(element, _)| element.attributes.contains_key("data-lane")) {
        let label = &element.attributes["data-lane"];
        let position = label.split(' ').nth(1).expect("a position");
        let own = csv.iter().filter(|fields| fields[1..4].join(",") == position);
        let given: Vec<_> = own
            .map(|fields| match fields[4].as_str() {
                "RedstoneLamp" | "CopperBulb" => fields[10].clone(),
                "Lever" | "Button" | "PressurePlate" => fields[5].clone(),
                _ => fields[8].clone(),
            })
            .collect();
        assert_eq!(element.attributes["data-values"], given.join(","), "{name}: {label}");
    }
    let devices = ["RedstoneLamp", "CopperBulb", "RedstoneTorch", "Repeater", "Comparator"];
    let lanes = elements.iter().filter(|(element, _)| element.attributes.contains_key("data-lane")).count();
    assert!(lanes >= of_tick("0").iter().filter(|fields| devices.contains(&fields[4].as_str())).count());
}

#[test]
fn every_page_is_well_formed_and_has_the_figures_of_the_columns() {
    for sample in samples() {
        assert_page(&sample);
    }
}

#[test]
fn a_page_needs_no_script_and_no_other_file() {
    for sample in samples() {
        let done = hall(&["report", &sample]);
        for word in ["<script", "src=", "href=", "url(", "@import", "onload"] {
            assert!(!done.text().contains(word), "{sample} has {word}");
        }
    }
}

#[test]
fn a_page_shows_what_differs_and_ends_with_status_1() {
    let wrong = "0,0,0 RedstoneBlock\n1,0,0 RedstoneLamp\n2,0,0 RedstoneWire\nexpect lamp 1,0,0 dark\n\
                 expect tick 3 dust 2,0,0 = 3\nexpect tick 4 lamp 1,0,0 lit\n";
    let name = file("page_differs", "<a & \"b\">.hall", wrong);
    let done = hall(&["report", &name]);
    assert_eq!((done.status, done.err.as_str()), (Some(1), ""));
    let page = done.text();
    elements(page);
    assert!(page.contains("<p class=\"verdict differs\">DIFFERS: 2 of 3 expectations</p>"));
    assert!(page.contains("&lt;a &amp; &quot;b&quot;&gt;.hall"));
    assert!(page.contains("<td>lamp 1,0,0 dark</td><td>&#8800; lit</td>"));
    assert!(page.contains("<td>tick 3 dust 2,0,0 = 3</td><td>&#8800; 0</td>"));
    assert!(
        page.contains("<rect class=\"differs\" ") && page.contains("<rect class=\"differs other-tick\" ")
    );
}

/// The second picture is of the last tick that is not as tick 0, and says so where the run comes back to it.
#[test]
fn a_page_says_why_it_shows_a_tick() {
    let lever = "0,0,0 RedstoneLamp\n0,1,0 Lever support=0,-1,0\nswitch tick 2 0,1,0 on\n";
    for (lines, head) in [
        ("", "<h2>Tick 20, as from tick 3 on</h2>"),
        ("switch tick 5 0,1,0 off\n", "<h2>Tick 7, the last that is not as tick 0</h2>"),
    ] {
        let name = file("page_ticks", "a.hall", format!("{lever}{lines}"));
        let done = hall(&["report", &name]);
        assert!(done.text().contains(head), "{head} in {:?}", done.text().find("<h2>Tick "));
    }
}

#[test]
fn a_page_of_every_kind_and_shape_is_well_formed() {
    let kinds = "Solid Transparent RedstoneWire RedstoneTorch Repeater Comparator Lever Button PressurePlate RedstoneLamp \
                 RedstoneBlock Piston CopperBulb";
    let shapes = ["plain", "bottom_slab", "top_slab", "double_slab", "bottom_stairs", "top_stairs", "glass"];
    let facings = ["North", "East", "South", "West", "Up", "Down"];
    let mut text = String::new();
    for (x, kind) in kinds.split_whitespace().enumerate() {
        for (z, shape) in shapes.iter().enumerate() {
            let facing = facings[(x + z) % facings.len()];
            text +=
                &format!("{},{},{} {kind} shape={shape} facing={facing} powered=true\n", 2 * x, x % 3, 2 * z);
        }
    }
    // Far away, so that the layers are drawn in parts.
    text += "1000000,0,-1000000 Comparator facing=East level=15\n-1000000,1000000,0 RedstoneTorch\n";
    assert_page(&file("page_kinds", "kinds.hall", text));
}
