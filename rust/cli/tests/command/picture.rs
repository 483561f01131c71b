//! `tarhuspo map show --svg`.

use crate::tools::{map_with, printed, printed_bytes, repository, run_bytes, Folder};
use std::fs;

/// The picture of a map.
fn picture(map: &[u8]) -> String {
    let output = run_bytes(&["map", "show", "-", "--svg", "-"], map);
    assert!(output.status.success(), "{output:?}");
    String::from_utf8(output.stdout).expect("UTF-8")
}

/// The picture in the documents is made from the sample as the sample says.
#[test]
fn picture_in_the_documents_is_up_to_date() {
    let code = repository("examples/sample.hex");
    let masks = repository("examples/sample.masks");
    let map = printed_bytes(&["map", "build", "--hex", &code, "--masks", &masks]);
    let kept = fs::read_to_string(repository("docs/map.svg")).expect("the picture");
    assert!(
        picture(&map) == kept,
        "docs/map.svg differs: examples/sample.hex has the command that makes it"
    );
}

#[test]
fn text_and_picture_come_together() {
    let folder = Folder::new("picture_both");
    let map = folder.write("some.map", map_with(&[(3, 2_048), (70, 5)]));
    let path = folder.path("some.svg");
    let text = printed(&["map", "show", &map, "--svg", &path]);
    assert_eq!(text, "zmm0[3] zero\nzmm1[6] from zmm0[5]\n");
    let drawn = String::from_utf8(folder.read("some.svg")).expect("UTF-8");
    assert_eq!(drawn, picture(&folder.read("some.map")));
    assert_eq!(folder.names(), ["some.map", "some.svg"]);
}

/// A map with all kinds of entries: every third byte stays, every seventh is zero, and the others
/// move alone or in pairs.
fn mixed() -> Vec<(usize, u16)> {
    let moved = (0..2_048).filter(|place| place % 3 != 0);
    moved
        .map(|place| match place % 7 {
            0 => (place, 2_048),
            _ => (place, ((place + 37 * (place / 8) + 5) % 2_048) as u16),
        })
        .collect()
}

/// Every cell tells what becomes of its byte.
#[test]
fn each_byte_has_a_cell_with_a_tooltip() {
    let entries = mixed();
    let drawn = picture(&map_with(&entries));
    let mut entry: Vec<u16> = (0..2_048).collect();
    for (place, from) in entries {
        entry[place] = from;
    }
    for (place, from) in entry.iter().map(|from| usize::from(*from)).enumerate() {
        let origin = match from {
            2_048 => "zero".to_string(),
            from if from == place => "untouched".to_string(),
            from => format!("from zmm{} byte {}", from / 64, from % 64),
        };
        let class = match from {
            2_048 => "z".to_string(),
            from if from == place => "k".to_string(),
            from => format!("r{}", from / 64),
        };
        let (register, byte) = (place / 64, place % 64);
        let cell =
            format!("class=\"{class}\"><title>zmm{register} byte {byte} {origin}</title></rect>");
        assert_eq!(drawn.matches(&cell).count(), 1, "{cell}");
    }
    assert_eq!(drawn.matches("<title>zmm").count(), 2_048);
}

/// Without colour, a box with a number tells the source.
#[test]
fn runs_are_numbered() {
    let entries: Vec<_> = (64..70)
        .map(|place| (place, place as u16 + 1_100))
        .collect();
    let drawn = picture(&map_with(&entries));
    assert_eq!(drawn.matches(">18:12</text>").count(), 1);
    let drawn = picture(&map_with(&[(64, 1_164), (100, 1_170), (101, 1_171)]));
    assert_eq!(drawn.matches(">18</text>").count(), 2);
    // Across lanes each part has its own box and number.
    let entries: Vec<_> = (72..104)
        .map(|place| (place, place as u16 + 1_152))
        .collect();
    let drawn = picture(&map_with(&entries));
    for number in [">19:8<", ">19:16<", ">19:32<"] {
        assert_eq!(drawn.matches(number).count(), 1, "{number}");
    }
}

#[test]
fn legend_explains_patterns_and_colours() {
    let drawn = picture(&map_with(&[(64, 1_164), (65, 2_048)]));
    for text in [
        "starting at its byte 12",
        ">zero<",
        ">untouched: stays as it is<",
    ] {
        assert_eq!(drawn.matches(text).count(), 1, "{text}");
    }
    let summary = ">1 bytes come from another place, 1 become zero, 2046 are untouched<";
    assert!(drawn.contains(summary), "{drawn}");
    // The key names the source alone, besides the 32 row headings.
    assert_eq!(drawn.matches(">zmm18</text>").count(), 2);
    assert_eq!(drawn.matches(">zmm1</text>").count(), 1);
}

#[test]
fn equal_maps_have_equal_pictures() {
    let map = map_with(&mixed());
    assert_eq!(picture(&map), picture(&map));
    assert_ne!(picture(&map), picture(&map_with(&[])));
}

/// Every element that is opened is closed, in order, and attributes are quoted.
#[test]
fn picture_is_well_formed() {
    for entries in [mixed(), vec![]] {
        let drawn = picture(&map_with(&entries));
        let mut open = Vec::new();
        for tag in drawn.split('<').skip(1) {
            let (tag, _) = tag.split_once('>').expect("a tag ends");
            let name = tag.split(' ').next().unwrap_or("");
            assert_eq!(tag.matches('"').count() % 2, 0, "{tag}");
            match name.strip_prefix('/') {
                Some(closed) => assert_eq!(open.pop(), Some(closed), "{tag}"),
                None if tag.ends_with('/') => {}
                None => open.push(name),
            }
        }
        assert!(open.is_empty(), "{open:?}");
        assert!(drawn.starts_with("<svg ") && drawn.ends_with("</svg>\n"));
        assert!(!drawn.contains('&'));
    }
}
