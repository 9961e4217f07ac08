//! Reading past faults, against plain reading of what is left (02, N11).

use m7_reference::generate::{any_file, bound_case, bound_faults, broken_file, Random};
use m7_reference::macros::Table;
use m7_reference::read::{read_after, read_file};
use m7_reference::recover::{recover, Recovered};
use m7_reference::refusal::Refusal;
use m7_reference::spell::{shortest_spelling, some_file_spells};

const FILES: usize = 60_000;

/// The macros that plain reading has before its fault: those of the longest
/// beginning that it takes.
fn before_fault(rest: &[u8], place: usize, kept: usize) -> Table {
    let cut = (0..=place).rev().find_map(|end| read_after(&rest[..end], kept, 100).ok());
    cut.expect("reading takes the empty file")
}

/// In 02's words, by plain reading of the rest of the file again and again.
fn by_plain_reading(file: &[u8]) -> Result<Recovered, Refusal> {
    if let Err(refusal @ Refusal { number: 10 | 11, .. }) = read_file(file) {
        return Err(refusal);
    }
    let (mut table, mut faults, mut from) = (Vec::new(), Vec::new(), 0);
    loop {
        let rest = &file[from..];
        let fault = match read_after(rest, table.len(), 100) {
            Ok(more) => {
                table.extend(more);
                return Ok(Recovered { table, faults });
            }
            Err(refusal) => refusal,
        };
        let place = from + fault.place;
        if fault.number == 19 {
            return Err(Refusal::at(19, place));
        }
        table.extend(before_fault(rest, fault.place, table.len()));
        if faults.len() == 256 {
            return Err(Refusal::plain(61));
        }
        faults.push(Refusal::at(fault.number, place));
        match (place..file.len()).find(|at| file[*at] == b';') {
            Some(end) => from = end + 1,
            None => return Ok(Recovered { table, faults }),
        }
    }
}

/// What 02 says of every kept table and list of faults.
fn as_promised(file: &[u8], recovered: &Recovered) {
    let Recovered { table, faults } = recovered;
    assert!(table.len() <= 96 && table.iter().all(some_file_spells));
    let spelled: Vec<u8> = table.iter().flat_map(shortest_spelling).collect();
    assert_eq!(read_file(&spelled).as_ref(), Ok(table));
    assert!(faults.windows(2).all(|two| two[0].place < two[1].place));
    assert!(faults.iter().all(|fault| (12..=18).contains(&fault.number)));
    assert!(faults.iter().all(|fault| fault.place <= file.len()));
}

#[test]
fn recovered_as_plain_reading_of_the_rest() {
    let mut random = Random::new(16);
    let (mut kept, mut most, mut found, mut refused) = (0, 0, [0; 19], [0; 62]);
    for number in 0..FILES {
        let file = match number % 60 {
            0 => bound_case(&mut random).file,
            1 | 2 => bound_faults(&mut random),
            3..=9 => any_file(&mut random),
            _ => broken_file(&mut random),
        };
        let got = recover(&file);
        assert_eq!(got, by_plain_reading(&file), "{:?}", String::from_utf8_lossy(&file));
        match read_file(&file) {
            Ok(table) => assert_eq!(got, Ok(Recovered { table, faults: Vec::new() })),
            Err(first) if first.number != 19 => {
                let fault = got.as_ref().map(|recovered| recovered.faults[0]);
                assert!(fault == Ok(first) || got.is_err());
            }
            Err(_) => {}
        }
        match got {
            Ok(recovered) => {
                as_promised(&file, &recovered);
                kept += recovered.table.len();
                most = most.max(recovered.faults.len());
                recovered.faults.iter().for_each(|fault| found[fault.number as usize] += 1);
            }
            Err(refusal) => refused[refusal.number as usize] += 1,
        }
    }
    println!("{FILES} files, {kept} macros kept, at most {most} faults in a file");
    println!("faults by number {found:?}, files refused by number {refused:?}");
    assert!((12..19).all(|number| found[number] > 100) && most == 256);
    assert!([10, 11, 19, 61].iter().all(|number| refused[*number] > 10));
}
