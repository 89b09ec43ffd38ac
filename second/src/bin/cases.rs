//! cases FOLDER: writes grammar files and event files for the listing program, the same in every
//! run, and a line for each call: a name, and the call's arguments, parted by tabs.

use second::bytes::MOST_BYTES;
use second::derive::cells;
use second::drawn::{any_image, live_image, with_dead, SORTS};
use second::examples::{binary, chain, digits, faulty, image, image_of, in_every_way, largest};
use second::examples::{largest_barren, largest_unreached, misspelt, orders, ring, stop};
use second::examples::{version_2, wide};
use second::image::decode;
use second::listing::COUNT_BUFFER;
use second::random::Random;
use second::services::MOST_EVENTS;
use std::path::PathBuf;
use std::{env, fs, io};

/// A pair of files is named by a count, so that each pair has its own.
struct Cases {
    folder: PathBuf,
    written: usize,
}

impl Cases {
    /// The path of a file in the folder.
    fn path(&self, name: &str) -> String {
        self.folder.join(name).display().to_string()
    }

    fn write(&self, name: &str, bytes: &[u8]) -> io::Result<String> {
        let path = self.path(name);
        fs::write(&path, bytes)?;
        Ok(path)
    }

    fn pair(&mut self, name: &str, grammar: &[u8], events: &[u8]) -> io::Result<()> {
        self.written += 1;
        let grammar = self.write(&format!("{}.grammar", self.written), grammar)?;
        let events = self.write(&format!("{}.events", self.written), events)?;
        println!("{name}\t{grammar}\t{events}");
        Ok(())
    }

    fn record(&mut self, name: &str, grammar: &[u8], events: &[u16]) -> io::Result<()> {
        let bytes: Vec<u8> = events.iter().flat_map(|e| e.to_le_bytes()).collect();
        self.pair(name, grammar, &bytes)
    }
}

fn main() -> io::Result<()> {
    let folder = env::args_os().nth(1).expect("the argument is a folder");
    let mut cases = Cases {
        folder: folder.into(),
        written: 0,
    };
    examples(&mut cases)?;
    totals(&mut cases)?;
    refused_images(&mut cases)?;
    refused_rules(&mut cases)?;
    dead_symbols(&mut cases)?;
    rings(&mut cases)?;
    flags(&mut cases)?;
    versions(&mut cases)?;
    long_images(&mut cases)?;
    event_files(&mut cases)?;
    count_buffer(&mut cases)?;
    large(&mut cases)?;
    absent(&cases)?;
    let mut random = Random::new(1);
    for at in 0..60 {
        any(&mut cases, &mut random, at)?;
    }
    Ok(())
}

/// Numbers of events around the bits of a word and around the limit.
fn long() -> impl Iterator<Item = usize> {
    (63..=66).chain(MOST_EVENTS - 1..=MOST_EVENTS + 2)
}

/// The rows of the specification.
fn examples(cases: &mut Cases) -> io::Result<()> {
    for n in [0, 1, 2, 3, 4, 5, 7, 9, 20, 21].into_iter().chain(long()) {
        cases.record(&format!("CHAIN, {n} events"), &chain(), &vec![7; n])?;
    }
    cases.record("CHAIN, 7 8", &chain(), &[7, 8])?;
    cases.record("CHAIN, the bytes of 7 swapped", &chain(), &[7 << 8])?;
    for n in [0, 1, 2, 3, 4, 6].into_iter().chain(long()) {
        let events: Vec<u16> = (0..n).map(|place| 1 + (place % 3) as u16).collect();
        cases.record(&format!("STOP, {n} events"), &stop(), &events)?;
    }
    cases.record("STOP, 1 2 3 3 2 1", &stop(), &[1, 2, 3, 3, 2, 1])
}

/// Around a hundred scripts and around the cap.
fn totals(cases: &mut Cases) -> io::Result<()> {
    for total in [0, 1, 2, 9, 10, 11, 99, 100, 101, 999, 2_000, 2_001] {
        cases.record(&format!("total {total}"), &binary(), &digits(total))?;
    }
    for total in (1 << 32) - 4..(1 << 32) + 3 {
        cases.record(&format!("total {total}"), &binary(), &digits(total))?;
    }
    cases.record("total of 64 bits", &binary(), &digits(u64::MAX))?;
    cases.record("zeros only", &binary(), &vec![0; longest(5)])
}

/// STOP with one byte changed.
fn spoiled(place: usize, byte: u8) -> Vec<u8> {
    let mut image = stop();
    image[place] = byte;
    image
}

/// Each with a good event file, and with one that would be refused itself.
fn refused_images(cases: &mut Cases) -> io::Result<()> {
    let mut repeated = stop();
    repeated.copy_within(10..13, 13);
    let mut swapped = stop();
    swapped[19..25].rotate_left(3);
    let images = [
        vec![],
        stop()[..9].to_vec(),
        spoiled(0, b'e'),
        spoiled(3, 3),
        spoiled(4, 1),
        spoiled(5, 0),
        spoiled(5, 65),
        spoiled(7, 3),
        spoiled(9, 2),
        stop()[..30].to_vec(),
        [stop(), vec![0]].concat(),
        [stop(), vec![0; 65_536]].concat(),
        [b"esg".to_vec(), vec![0; 1_000_000]].concat(),
        [stop(), vec![0; 1_000_000]].concat(),
        spoiled(10, 6),
        spoiled(30, 6),
        spoiled(19, 255),
        repeated,
        swapped,
        spoiled(10, 5),
        misspelt(),
        faulty(misspelt(), &[], &[2]),
    ];
    let (odd, long) = ([0; MOST_BYTES - 1], [0; MOST_BYTES + 1]);
    for (at, image) in images.iter().enumerate() {
        cases.pair(&format!("refused image {at}"), image, &[1, 0])?;
        cases.pair(&format!("refused image {at}, odd"), image, &odd)?;
        cases.pair(&format!("refused image {at}, long"), image, &long)?;
    }
    Ok(())
}

/// Rules at fault among 768, of which the first 512 are event rules. No two of these cases name the
/// same rule with the same refusal, so that the output shows which of them there were.
fn refused_rules(cases: &mut Cases) -> io::Result<()> {
    let faults: [(&[usize], &[usize]); 13] = [
        (&[0], &[]),
        (&[99, 100], &[]),
        (&[300, 700], &[]),
        (&[511], &[]),
        (&[512, 767], &[]),
        (&[767], &[]),
        (&[600], &[100, 700]),
        (&[], &[1]),
        (&[], &[10, 11]),
        (&[], &[301, 701]),
        (&[], &[511]),
        (&[], &[513, 767]),
        (&[], &[767]),
    ];
    for (unknown, repeated) in faults {
        let image = faulty(largest(), unknown, repeated);
        let name = format!("symbols of {unknown:?} unknown, {repeated:?} repeated");
        cases.record(&name, &image, &[0])?;
    }
    Ok(())
}

/// Each sort of dead symbol in STOP, and a dead symbol alone or among as many as there may be, with
/// an empty record and with one that the others admit.
fn dead_symbols(cases: &mut Cases) -> io::Result<()> {
    let mut random = Random::new(15);
    let mut images = vec![
        ("no rules", image(1, &[], &[]), vec![7]),
        ("64 symbols, no rules", image(64, &[], &[]), vec![7]),
        ("itself alone", image(1, &[], &[(0, 0, 0)]), vec![7; 3]),
        ("largest, unreached", largest_unreached(), vec![0]),
        ("largest, barren", largest_barren(), vec![0]),
    ];
    for sort in SORTS {
        let stop = decode(&stop()).expect("an accepted image");
        let dead = random.within(1, stop.symbols);
        let image = with_dead(&mut random, stop, sort, dead);
        images.push((sort.0, image, vec![1, 2, 3]));
    }
    for (name, image, events) in images {
        let ways = ["version 1", "flag 0", "flag 1"];
        for (way, image) in ways.iter().zip(in_every_way(&image)) {
            cases.record(&format!("{name}, {way}"), &image, &events)?;
            cases.record(&format!("{name}, {way}, empty record"), &image, &[])?;
        }
    }
    Ok(())
}

/// 64 symbols one below the other in both orders of their numbers, whole and with one rule missing.
fn rings(cases: &mut Cases) -> io::Result<()> {
    for (name, order) in ["rising", "falling"].into_iter().zip(orders(64)) {
        for leaf in [0, 21, 63] {
            let name = format!("ring, {name}, leaf {leaf}");
            let ring = ring(&order, leaf, leaf == 63);
            cases.record(&name, &ring, &vec![7; leaf.min(21) + 1])?;
            let mut grammar = decode(&ring).expect("an accepted image");
            grammar.pair_rules.remove(20);
            cases.record(&format!("{name}, broken"), &image_of(&grammar), &[7])?;
        }
    }
    Ok(())
}

/// The empty record and others under both flags, event files that are refused, and other flags.
fn flags(cases: &mut Cases) -> io::Result<()> {
    for flag in [0, 1] {
        let (chain, stop) = (version_2(&chain(), flag), version_2(&stop(), flag));
        for n in [0, 1, 2, 3, 4, MOST_EVENTS + 1] {
            let name = format!("CHAIN, flag {flag}, {n} events");
            cases.record(&name, &chain, &vec![7; n])?;
        }
        for events in [&[][..], &[1], &[1, 2, 3]] {
            cases.record(&format!("STOP, flag {flag}, {events:?}"), &stop, events)?;
        }
        cases.pair(&format!("CHAIN, flag {flag}, one byte"), &chain, &[7])?;
        let wide = version_2(&wide(64), flag);
        cases.record(&format!("64 symbols, flag {flag}"), &wide, &[])?;
    }
    for flag in [2, 3, 128, 254, 255] {
        let image = version_2(&chain(), flag);
        cases.record(&format!("flag {flag}"), &image, &[])?;
        cases.record(&format!("flag {flag}, one event"), &image, &[7])?;
        let long = [image, vec![0]].concat();
        cases.record(&format!("flag {flag}, a byte too many"), &long, &[])?;
    }
    Ok(())
}

/// Images that end at their header or at their flag, images of other versions, one as long as its
/// version 1 image, and rules at fault after a flag.
fn versions(cases: &mut Cases) -> io::Result<()> {
    let header = version_2(&image(1, &[], &[]), 1)[..10].to_vec();
    cases.record("version 2, 10 bytes, no rules", &header, &[])?;
    for (place, byte) in [(5, 0), (5, 65), (6, 1), (7, 3), (8, 1), (9, 2)] {
        let name = format!("byte {place} of version 2 is {byte}");
        let mut image = header.clone();
        image[place] = byte;
        cases.record(&format!("{name}, 10 bytes"), &image, &[])?;
        image.push(1);
        cases.record(&format!("{name}, 11 bytes"), &image, &[])?;
    }
    for version in [[0, 0], [1, 0], [3, 0], [2, 1], [0, 2], [1, 2], [255, 255]] {
        let mut image = version_2(&chain(), 1);
        image[3..5].copy_from_slice(&version);
        cases.record(&format!("version bytes {version:?}"), &image, &[])?;
    }
    let mut short = chain();
    short[3] = 2;
    cases.record("version 2 without its flag", &short, &[])?;
    let image = version_2(&largest(), 1);
    let (unknown, repeated) = (
        faulty(image.clone(), &[50], &[]),
        faulty(image, &[], &[520]),
    );
    cases.record("symbol of 50 unknown, version 2", &unknown, &[])?;
    cases.record("520 repeated, version 2", &repeated, &[])
}

/// A byte more or less than the largest images have, and many more, of which the first decides.
fn long_images(cases: &mut Cases) -> io::Result<()> {
    for (name, image) in [
        ("version 1", largest()),
        ("flag 1", version_2(&largest(), 1)),
        ("flag 2", version_2(&largest(), 2)),
    ] {
        let short = &image[..image.len() - 1];
        cases.record(&format!("largest, {name}, a byte less"), short, &[])?;
        for more in [1, 2, 3, 65_536, 1_000_000] {
            let long = [image.clone(), vec![0; more]].concat();
            cases.record(&format!("largest, {name}, {more} bytes more"), &long, &[])?;
        }
    }
    Ok(())
}

fn event_files(cases: &mut Cases) -> io::Result<()> {
    let wide = wide(64);
    let shorter = [1, 2, 3, 43, 44, 45, 46, 127, 128, 129, 130];
    let near = MOST_BYTES - 2..=MOST_BYTES + 2;
    let longer = [255, 256, 257, 65_536, 65_539, 1_000_000];
    for length in shorter.into_iter().chain(near).chain(longer) {
        let bytes: Vec<u8> = (0..length).map(|place| [7, 0][place % 2]).collect();
        cases.pair(&format!("CHAIN, {length} bytes"), &chain(), &bytes)?;
        cases.pair(&format!("64 symbols, {length} bytes"), &wide, &bytes)?;
    }
    Ok(())
}

/// The most events of a record that the count buffer holds with so many symbols.
fn longest(symbols: usize) -> usize {
    let fits = |n: &usize| symbols * cells(*n) <= COUNT_BUFFER;
    let lengths = (0..=MOST_EVENTS).filter(fits);
    lengths.max().expect("an empty record fits")
}

/// The longest record that the count buffer holds and the next one, if there may be one.
fn count_buffer(cases: &mut Cases) -> io::Result<()> {
    for symbols in [3, 4, 5, 6, 7, 8, 9, 10, 13, 16, 20, 21, 32, 44, 63, 64] {
        let image = wide(symbols as u8);
        let last = longest(symbols);
        for n in last..=(last + 1).min(MOST_EVENTS) {
            cases.record(
                &format!("{symbols} symbols, {n} events"),
                &image,
                &vec![7; n],
            )?;
        }
    }
    Ok(())
}

/// As many rules as there may be, so that rule numbers have three digits, and one.
fn large(cases: &mut Cases) -> io::Result<()> {
    for n in [0, 1, 2, 3, 22] {
        let events: Vec<u16> = (0..n).map(|place| place % 8).collect();
        cases.record(&format!("largest, {n} events"), &largest(), &events)?;
        let quiet = version_2(&largest(), 1);
        cases.record(&format!("largest, flag 1, {n} events"), &quiet, &events)?;
    }
    cases.record("no pair rules", &image(1, &[(0, 7)], &[]), &[7])
}

/// Files and arguments that are not there, and one too many.
fn absent(cases: &Cases) -> io::Result<()> {
    let (grammar, events) = (
        cases.write("grammar", &chain())?,
        cases.write("events", &[7, 0])?,
    );
    let (bad, none, folder) = (
        cases.write("bad", b"bad")?,
        cases.path("none"),
        cases.path("folder"),
    );
    fs::create_dir(&folder)?;
    println!("no arguments");
    println!("one argument\t{grammar}");
    println!("one argument, bad\t{bad}");
    println!("no grammar\t{none}\t{events}");
    println!("no events\t{grammar}\t{none}");
    println!("no events, bad grammar\t{bad}\t{none}");
    println!("neither\t{none}\t{none}");
    println!("grammar a folder\t{folder}\t{events}");
    println!("events a folder\t{grammar}\t{folder}");
    println!("events a folder, bad grammar\t{bad}\t{folder}");
    println!("bad grammar\t{bad}\t{events}");
    println!("the same file\t{grammar}\t{grammar}");
    println!("three arguments\t{grammar}\t{events}\t{none}");
    Ok(())
}

/// A random grammar of few symbols in either version, mostly a live one and sometimes with one byte
/// changed, and a random record.
fn any(cases: &mut Cases, random: &mut Random, at: usize) -> io::Result<()> {
    let symbols = random.within(1, 4);
    let kinds = &[0, 1, 2][..random.within(1, 3)];
    let (event_rules, pair_rules) = (random.within(1, 9), random.within(1, 20));
    let draw = match at % 4 {
        0 => any_image,
        _ => live_image,
    };
    let mut image = draw(random, symbols, kinds, event_rules, pair_rules);
    if random.once_in(2) {
        image = version_2(&image, random.below(2) as u8);
    }
    if random.once_in(4) {
        let place = random.below(image.len());
        image[place] ^= 1 << random.below(8);
    }
    let n = random.below(11);
    let events: Vec<_> = (0..n).map(|_| random.one_of(kinds)).collect();
    cases.record(&format!("random {at}"), &image, &events)
}
