//! `m7-trial SEED CALLS` makes generated calls until there are so many, of
//! the archive and of the Rust version, and prints what differs and the counts.
//! A call is one call of an exported function whose answer, every lent byte
//! and the bytes around it were compared. The exit code is 1 if any differ.

use m7_archive::trial::{grouped, Group, Songs, Trial};
use m7_reference::generate::Random;
use std::process::ExitCode;

fn main() -> ExitCode {
    let words: Vec<u64> = std::env::args().skip(1).filter_map(|word| word.parse().ok()).collect();
    let [seed, calls] = words[..] else {
        eprintln!("usage: m7-trial SEED CALLS");
        return ExitCode::from(2);
    };
    let mut random = Random::new(seed);
    let (mut trial, mut songs) = (Trial::new(), Songs::default());
    while trial.counts.all() < calls && trial.differing < 20 {
        songs.next(&mut trial, &mut random);
    }
    trial.counts.print();
    println!();
    println!("{} files alone,", grouped(songs.files));
    println!("{} files with lists of lines,", grouped(songs.lists));
    println!("{} near a bound of 01,", grouped(songs.bounds));
    println!("{} with 10 to 89 macros and long lines,", grouped(songs.long));
    println!("{} lines in the lists;", grouped(songs.lines));
    let lines = |group: Group| grouped(trial.counts.of(group));
    let (exact, less) = (lines(Group::FeedExact), lines(Group::FeedLess));
    let more = lines(Group::FeedMore);
    println!("{exact} asked under their passes, {less} under one less, {more} under more;");
    let longest = grouped(trial.longest_trace as u64);
    println!("{} lines wrote a trace, the longest of {longest} bytes;", grouped(trial.traced));
    println!("{} files measured are read, but not written out;", grouped(trial.unwritten));
    println!("{} faults were listed;", grouped(trial.faults_found));
    println!("seed {seed}, {} calls compared", grouped(trial.counts.all()));
    println!("{} differ", trial.differing);
    ExitCode::from((trial.differing > 0) as u8)
}
