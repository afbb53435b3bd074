//! The worked figures of a small group, by its calls.

use second::carrier::{Carrier, RecordCarrier};
use second::code::{Code, Sizes};
use second::field::Field;
use second::group::reads::{Answer, Way};
use second::group::{Delivered, Encoded, Group, Reading};
use second::message::Cells;
use second::refusal::Refusal;
use second::script::replay::{replay, End};
use second::tag::Tag;

fn three_offices() -> (Group, RecordCarrier) {
    let sizes = Sizes { servers: 3, objects: 2, cells: 1 };
    let code = Code::new(Field::Mod251, sizes, &[1, 0, 0, 1, 1, 1]).expect("a good code");
    let carrier = RecordCarrier::new(3, 4, None).expect("laid out");
    (Group::new(code), carrier)
}

#[test]
fn a_write_comes_to_another_office() {
    let (mut group, mut carrier) = three_offices();
    assert_eq!(group.write(&mut carrier, 0, 0, &[100]), Ok(Tag::new(1, 0)));
    let zero = Answer { value: Cells::from([0]), tag: Tag::ZERO, way: Way::Held };
    assert_eq!(group.read(&mut carrier, 2, 0, 1), Ok(Reading::Given(zero)));
    assert_eq!(group.deliver(&mut carrier, 0, 2), Ok(Delivered::Noted));
    assert_eq!(group.apply(&carrier, 2), Ok(Some(Tag::new(1, 0))));
    assert_eq!(group.encode(&mut carrier, 2, 0), Ok(Encoded::OwnTagRaised));
    assert_eq!(group.symbol(2), Ok(&[100u8][..]));
    assert_eq!(carrier.len(2, 1), Ok(1));
}

#[test]
fn elements_and_full_lanes() {
    let (mut group, mut carrier) = three_offices();
    assert_eq!(group.write(&mut carrier, 0, 0, &[251]), Err(Refusal::NoElement));
    for height in 1..=4 {
        assert_eq!(group.write(&mut carrier, 0, 0, &[250]), Ok(Tag::new(height, 0)));
    }
    assert_eq!(group.write(&mut carrier, 0, 0, &[250]), Err(Refusal::LaneFull));
}

#[test]
fn seventeen_cells_are_too_many() {
    let sizes = Sizes { servers: 3, objects: 2, cells: 17 };
    let code = Code::new(Field::Mod251, sizes, &[1, 0, 0, 1, 1, 1]);
    assert_eq!(code.err(), Some(Refusal::CellsOutOfBounds));
}

fn written(script: &str) -> (String, End) {
    let mut out = Vec::new();
    let end = replay(script.as_bytes(), &mut out).expect("memory takes all");
    (String::from_utf8(out).expect("plain text"), end)
}

#[test]
fn an_unreadable_line_ends_a_script() {
    let (out, end) = written("# nothing\n\nbytes 00 # short\napply 0\nbytes 00\n");
    assert_eq!(out, "fault 19 at 0 layer 1\n");
    assert!(matches!(end, End::Unreadable { line: 4, .. }));
}

#[test]
fn a_refused_layout_leaves_what_was_there() {
    let script = "group 256 2 1 1 1 1\ngroup 256 9 1 1\nsymbol 1\r\n\tsymbol\t2";
    let (out, end) = written(script);
    assert_eq!(out, "ready\nrefused 1\nsymbol 0\nrefused 7\n");
    assert_eq!(end, End::Reached);
}
