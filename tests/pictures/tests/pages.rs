//! The pictures and the page as they are.

use pictures::tree::Tree;
use pictures::{definitions, groups, page, phases, store, Faults};

#[track_caller]
fn right(check: fn(&Tree) -> Result<Faults, String>) {
    let faults = check(&Tree::here()).unwrap_or_else(|fault| vec![fault]);
    assert!(faults.is_empty(), "\n{}", faults.join("\n"));
}

#[test]
fn phases_and_calls() {
    right(phases);
}

#[test]
fn a_stores_life() {
    right(store);
}

#[test]
fn groups_of_crates() {
    right(groups);
}

#[test]
fn definitions_in_pictures() {
    right(definitions);
}

#[test]
fn table_of_crates() {
    right(page::crates);
}

#[test]
fn rule_of_names() {
    right(page::names);
}

#[test]
fn how_many() {
    right(page::counts);
}

#[test]
fn ways_outside_the_controller() {
    right(page::ways);
}

#[test]
fn where_to_find() {
    right(page::places);
}

#[test]
fn paths_and_links() {
    right(page::paths);
}

#[test]
fn links_of_other_pages() {
    right(page::links);
}
