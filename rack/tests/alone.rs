//! A drive among the others and alone, and with boards that are wrong among others: what differs must be told, with the
//! first order or delivery that does, and the page must show it beside the other.

use ctc_rack::alone::Alone;
use ctc_rack::board::Wrong;
use ctc_rack::page::Page;
use ctc_rack::run::{run, Ran};
use ctc_rack::scenario::Scenario;
use ctc_rack::story;
use std::path::Path;

const SCENARIO: &str = "drive 0 cartridge new inches 600\ndrive 1 cartridge new inches 600\n\
job 0 drive 0 density GCR\n  write made 9000 count 3000\n  weof 2\n  rewind\n  read one\n\
job 1 drive 1 density GCR\n  write made 8000 count 2000\n  weof 2\n  rewind\n  read two\n";

fn ran(scenario: &Scenario, alone: Option<u8>, wrong: Option<Wrong>) -> Ran {
    let mut setup = scenario.setup(1, alone, true);
    setup.keeps_orders = true;
    setup.wrongs.board = wrong;
    run(setup, &mut |_, _| {})
}

/// Drive 1 in the rack and alone, and the page of both.
fn compared(wrong: Option<Wrong>) -> (Alone, String) {
    let scenario = Scenario::parse(SCENARIO.as_bytes(), Path::new(".")).unwrap();
    let (rack, alone) = (ran(&scenario, None, wrong), ran(&scenario, Some(1), None));
    let alone = Alone::of(1, rack.board(), alone.board(), story::tell(alone.board().events()));
    let entries = story::tell(rack.board().events());
    let (summary, verdict, heads) = ("", "", std::array::from_fn(|_| String::new()));
    let page = Page { title: "both", summary, verdict, entries: &entries, heads, alone: Some(&alone) };
    let html = page.html();
    (alone, html)
}

#[test]
fn a_drive_is_the_same_alone() {
    let (alone, html) = compared(None);
    assert!(alone.same, "{}", alone.words);
    assert!(alone.words.starts_with("the same 14 orders and images, and the same 8000 bytes"), "{}", alone.words);
    assert!(!html.contains("<div class=differs>"));
    // each order of the drive stands twice, in its own lane and in the lane alone
    let orders = |lane: &str| {
        let cells = html.split("<td ").filter(|cell| cell.contains(&format!("data-lane=\"{lane}\"")));
        cells.map(|cell| cell.matches("<b>order</b>").count()).sum::<usize>()
    };
    assert_eq!((orders("drive 1"), orders("drive 1 alone")), (14, 14));
}

#[test]
fn what_a_wrong_board_changes_is_told() {
    for (wrong, part) in [
        (Wrong::OtherDrive, "NOT THE SAME: order "),
        (Wrong::OldImage, "NOT THE SAME: "),
        (Wrong::ShortDelivery, "delivery 1: 1999 bytes in the rack, 2000 alone"),
        (Wrong::DeliveredTwice, "delivery 1: 4000 bytes in the rack, 2000 alone"),
    ] {
        let (alone, html) = compared(Some(wrong));
        println!("{wrong:?}: {}", alone.words);
        assert!(!alone.same && alone.words.contains(part), "{wrong:?}: {}", alone.words);
        assert!(html.contains("NOT THE SAME: "), "{wrong:?}");
        if alone.words.contains("order ") {
            assert!(html.contains("<div class=differs>"), "{wrong:?}");
        }
    }
}
