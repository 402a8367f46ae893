//! The table of examples, by the crate.

mod common;

use latsefur::Sign;

#[test]
fn strings_have_their_answers() {
    for table in common::files("examples") {
        let examples = common::examples(&table);
        assert!(examples.len() > 1);
        for example in examples {
            check(&common::sign_with(&table, &example.change), &example);
        }
    }
}

fn check(sign: &Sign, example: &common::Example) {
    let (text, place) = (example.string.as_bytes(), &example.place);
    if !example.answer[0].starts_with("page") && example.answer[0] != "off" {
        assert_eq!(sign.check(text).unwrap().to_string(), example.answer[0], "{place}");
        let all = sign.check_all(&[text, b"", text]).unwrap();
        assert_eq!([all[0].to_string(), all[2].to_string()], [example.answer[0].clone(), example.answer[0].clone()], "{place}");
        return;
    }
    let (shown, plane) = (sign.shown(text, example.clock).unwrap(), sign.plane(text, example.colour, example.clock).unwrap());
    let told = format!("{}\n{plane}", shown.map_or("off".to_string(), |shown| shown.to_string()));
    assert_eq!(told, example.answer.join("\n"), "{place}");
    let colours = sign.colours(text, example.clock).unwrap();
    for (row, column) in (0..sign.height()).flat_map(|row| (0..sign.width()).map(move |column| (row, column))) {
        assert_eq!(colours.colour(row, column) == Some(example.colour), plane.lit(row, column) == Some(true), "{place}");
    }
    if let Some(shown) = shown {
        assert_eq!(sign.colours_of_page(text, shown.page, shown.phase).unwrap(), colours, "{place}");
        assert_eq!(sign.plane_of_page(text, shown.page, example.colour, shown.phase).unwrap(), plane, "{place}");
    }
}
