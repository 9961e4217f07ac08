//! What a file will take, against the table that it makes (02, N8).

use m7_reference::answers::parse;
use m7_reference::generate::{any_file, bound_case, bound_written, good_file, Random};
use m7_reference::macros::{Item, Macro};
use m7_reference::measure::{measure, Plan};
use m7_reference::read::read_file;
use m7_reference::refusal::Refusal;
use m7_reference::write::write_table;

const FILES: usize = 150_000;

/// The most items of a macro of a table for which this holds.
fn most(table: &[Macro], counts: fn(&Item) -> bool) -> usize {
    let of = |made: &Macro| made.pattern.iter().filter(|item| counts(item)).count();
    table.iter().map(of).max().unwrap_or(0)
}

/// From the table made, and the file written.
fn of_table(file: &[u8]) -> Result<Plan, Refusal> {
    let table = read_file(file)?;
    let elements = most(&table, |item| !matches!(item, Item::Open | Item::Close));
    let tags = most(&table, |item| *item == Item::Open);
    let bytes = write_table(&table).map(|written| written.len());
    Ok(Plan { macros: table.len(), elements, tags, bytes })
}

#[test]
fn measured_as_the_table_shows() {
    let mut random = Random::new(15);
    let (mut taken, mut unwritten, mut refused) = (0, [0; 20], [0; 20]);
    for number in 0..FILES {
        let file = match number % 50 {
            0 => bound_case(&mut random).file,
            1 => good_file(&mut random, true, 80),
            2 => bound_written(&mut random),
            _ => any_file(&mut random),
        };
        let got = measure(&file);
        assert_eq!(got, of_table(&file), "{:?}", String::from_utf8_lossy(&file));
        match got.map(|plan| plan.bytes) {
            Ok(Ok(_)) => taken += 1,
            Ok(Err(refusal)) => unwritten[refusal.number as usize] += 1,
            Err(refusal) => refused[refusal.number as usize] += 1,
        }
    }
    println!("{taken} files; not written by number {unwritten:?}; refused by number {refused:?}");
    assert!([10, 18].iter().all(|number| unwritten[*number] > 500));
    assert!((10..20).all(|number| refused[number] > 20));
}

#[test]
fn stored_files_are_measured_as_their_tables_show() {
    let folder = concat!(env!("CARGO_MANIFEST_DIR"), "/answers");
    for entry in std::fs::read_dir(folder).unwrap() {
        let path = entry.unwrap().path();
        if path.extension().is_some_and(|end| end == "txt") && !path.ends_with("programs.txt") {
            for case in parse(&std::fs::read_to_string(&path).unwrap()).unwrap() {
                assert_eq!(measure(&case.file), of_table(&case.file), "{}", case.name);
            }
        }
    }
}
