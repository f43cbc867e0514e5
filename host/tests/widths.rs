//! Holds what a reader sees of the kinds and their widths to `Kind`: the arms of `kinds::width_of` with the names behind them, the table of docs/LAYOUT.md,
//! the comment of include/puffwidget.h. The widths of the arms are proved; no proof reads a comment or a page.

use puffwidget::Kind;
use std::fs;
use std::path::PathBuf;

/// One width, the numbers of its kinds, and their names.
#[derive(PartialEq, Debug)]
struct Group {
    width: usize,
    numbers: Vec<u32>,
    names: Vec<String>,
}

fn text(path: &str) -> String {
    let top = option_env!("CARGO_MANIFEST_DIR").map_or(PathBuf::from("."), |host| PathBuf::from(host).join(".."));
    fs::read_to_string(top.join(path)).unwrap_or_else(|error| panic!("{path}: {error}"))
}

/// Numbers and ranges, as `4 | 8 | 13..=15`: `between` stands between two of them, `through` between a range's first and last.
fn numbers(listed: &str, between: char, through: &str) -> Vec<u32> {
    let number = |one: &str| one.trim().parse::<u32>().unwrap_or_else(|_| panic!("{listed}: no number"));
    let range = |one: &str| match one.split_once(through) {
        Some((low, high)) => number(low)..=number(high),
        None => number(one)..=number(one),
    };
    listed.split(between).flat_map(range).collect()
}

fn group(width: &str, numbers: Vec<u32>, names: &str) -> Group {
    Group { width: width.trim().parse().expect("a width"), numbers, names: names.split(',').map(|name| name.trim().to_string()).collect() }
}

/// The kinds by their widths, narrow ones first.
fn by_width() -> Vec<Group> {
    let kinds: Vec<Kind> = (1..=19).map(|number| Kind::of(number).expect("a kind")).collect();
    let mut widths: Vec<usize> = kinds.iter().map(|kind| kind.width()).collect();
    widths.sort();
    widths.dedup();
    let of = |width: usize| kinds.iter().filter(move |kind| kind.width() == width);
    let grouped = |width| Group {
        width,
        numbers: of(width).map(|kind| kind.number()).collect(),
        names: of(width).map(|kind| format!("{kind:?}")).collect(),
    };
    widths.into_iter().map(grouped).collect()
}

#[test]
fn the_arms_group_the_kinds_and_name_them() {
    let code = text("crates/kinds/src/lib.rt");
    let arms = code.lines().filter_map(|line| line.split_once(" => Some("));
    let told = arms.map(|(listed, behind)| {
        let (width, names) = behind.split_once("), //").expect("names behind the arm");
        group(width, numbers(listed, '|', "..="), names)
    });
    assert_eq!(told.collect::<Vec<_>>(), by_width());
}

#[test]
fn the_page_groups_the_kinds_and_names_them() {
    let page = text("docs/LAYOUT.md");
    let (_, table) = page.split_once("| width | kinds | types |\n|---|---|---|\n").expect("the table of widths");
    let told = table.lines().take_while(|line| line.starts_with('|')).map(|line| {
        let cells: Vec<&str> = line.trim_matches('|').split('|').collect();
        group(cells[0], numbers(cells[1], ',', " to "), cells[2])
    });
    assert_eq!(told.collect::<Vec<_>>(), by_width());
}

#[test]
fn the_header_groups_the_kinds_by_name() {
    let header = text("include/puffwidget.h");
    let (_, behind) = header.split_once("The bytes of a row:\n").expect("the widths");
    let (lines, _) = behind.split_once(" */").expect("an end");
    let told = lines.lines().map(|line| {
        let (width, names) = line.trim_start_matches([' ', '*']).split_once(' ').expect("a width and names");
        (width.parse().expect("a width"), names.replace("PW_", "").replace(['_', ' '], ""))
    });
    let wanted = by_width().into_iter().map(|group| (group.width, group.names.join(",").to_uppercase()));
    assert_eq!(told.collect::<Vec<(usize, String)>>(), wanted.collect::<Vec<_>>());
}
