//! The listing program's output.

use second::examples::{binary, chain, digits, faulty, image, in_every_way, largest};
use second::examples::{largest_barren, largest_unreached, misspelt, stop, version_2, wide};
use second::listing::output;

/// The listing of these events as a file.
fn listed(image: &[u8], events: &[u16]) -> String {
    let bytes: Vec<u8> = events.iter().flat_map(|e| e.to_le_bytes()).collect();
    output(Some(image), Some(&bytes))
}

#[test]
fn chain_7_7_7() {
    let told = "readings 2\n1 1 0 1 1 2 0 2 0 3\n1 2 1 1 0 1 0 2 0 3\n";
    assert_eq!(listed(&chain(), &[7; 3]), told);
}

#[test]
fn no_file() {
    assert_eq!(output(None, None), "no file\n");
    assert_eq!(output(None, Some(&[])), "no file\n");
    assert_eq!(output(Some(b"bad"), None), "no file\n");
}

#[test]
fn refusals_in_their_order() {
    let refused = |image: &[u8], length| output(Some(image), Some(&vec![0; length]));
    assert_eq!(refused(b"ESG", 193), "refused 1\n");
    assert_eq!(refused(&[chain(), vec![0]].concat(), 193), "refused 5\n");
    assert_eq!(refused(&wide(64), 193), "refused 8\n");
    assert_eq!(refused(&wide(64), 191), "refused 14\n");
    assert_eq!(refused(&wide(64), 192), "refused 10\n");
}

/// Whatever the flag and the event file, refused itself or not.
#[test]
fn dead_symbols() {
    for dead in [
        misspelt(),
        image(1, &[], &[]),
        image(64, &[], &[]),
        largest_barren(),
        largest_unreached(),
    ] {
        for image in in_every_way(&dead) {
            for length in [0, 2, 191, 192, 193] {
                let told = output(Some(&image), Some(&vec![0; length]));
                assert_eq!(told, "refused 15\n");
            }
        }
        assert_eq!(listed(&version_2(&dead, 2), &[]), "refused 4\n");
    }
    let repeated = faulty(misspelt(), &[], &[2]);
    assert_eq!(listed(&repeated, &[1]), "refused 7 2\n");
}

/// Of 768 rules, whatever the event file; and of the two of CHAIN.
#[test]
fn rules_at_fault() {
    for length in [2, 191, 193] {
        let refused = |unknown: &[usize], repeated: &[usize]| {
            let image = faulty(largest(), unknown, repeated);
            output(Some(&image), Some(&vec![0; length]))
        };
        assert_eq!(refused(&[0], &[]), "refused 6 0\n");
        assert_eq!(refused(&[10, 700], &[]), "refused 6 10\n");
        assert_eq!(refused(&[767], &[]), "refused 6 767\n");
        assert_eq!(refused(&[600], &[100]), "refused 6 600\n");
        assert_eq!(refused(&[], &[1]), "refused 7 1\n");
        assert_eq!(refused(&[], &[99, 513]), "refused 7 99\n");
        assert_eq!(refused(&[], &[767]), "refused 7 767\n");
    }
    let refused = |unknown| listed(&faulty(chain(), unknown, &[]), &[7]);
    assert_eq!(refused(&[0, 1]), "refused 6 0\n");
    assert_eq!(refused(&[1]), "refused 6 1\n");
}

#[test]
fn event_file_lengths() {
    let first = |length| {
        let bytes: Vec<u8> = (0..length).map(|place| [7, 0][place % 2]).collect();
        let text = output(Some(&chain()), Some(&bytes));
        text.lines().next().expect("a line").to_string()
    };
    for length in [127, 129, 191] {
        assert_eq!(first(length), "refused 14");
    }
    for length in [128, 130, 190, 192] {
        assert_eq!(first(length), "readings 4294967295 or more");
    }
    for length in [193, 194, 255, 256, 65_536 + 192] {
        assert_eq!(first(length), "refused 8");
    }
}

/// The most events that the count buffer holds, and one more.
#[test]
fn count_buffer() {
    let listed = |symbols, events| listed(&wide(symbols), &vec![0; events]);
    assert_eq!(listed(3, 96), "readings 0\n");
    for (symbols, events) in [(4, 90), (5, 80), (7, 67), (8, 63), (64, 22)] {
        assert_eq!(listed(symbols, events), "readings 0\n");
        assert_eq!(listed(symbols, events + 1), "refused 10\n");
    }
}

#[test]
fn totals_and_the_first_hundred() {
    for (total, first) in [
        (1, "readings 1\n"),
        (99, "readings 99\n"),
        (100, "readings 100\n"),
        (101, "readings 101\n"),
        (4_294_967_294, "readings 4294967294\n"),
        (4_294_967_295, "readings 4294967295 or more\n"),
        (4_294_967_296, "readings 4294967295 or more\n"),
    ] {
        let text = listed(&binary(), &digits(total));
        assert!(text.starts_with(first), "{text}");
        assert_eq!(text.lines().count() as u64, 1 + total.min(100));
    }
}

#[test]
fn no_readings() {
    assert_eq!(listed(&chain(), &[]), "readings 0\n");
    assert_eq!(listed(&stop(), &[1, 2]), "readings 0\n");
    // Low byte first: the event is 7, and not 1,792.
    assert_eq!(output(Some(&chain()), Some(&[0, 7])), "readings 0\n");
    let one = "readings 1\n0 1\n";
    assert_eq!(output(Some(&chain()), Some(&[7, 0])), one);
}

/// The line of the empty script is blank.
#[test]
fn quiet_shift() {
    for image in [chain(), stop(), largest(), wide(64)] {
        assert_eq!(listed(&image, &[]), "readings 0\n");
        assert_eq!(listed(&version_2(&image, 0), &[]), "readings 0\n");
        assert_eq!(listed(&version_2(&image, 1), &[]), "readings 1\n\n");
        assert_eq!(listed(&version_2(&image, 2), &[]), "refused 4\n");
    }
    let quiet = version_2(&chain(), 1);
    assert_eq!(listed(&quiet, &[7]), "readings 1\n0 1\n");
    assert_eq!(listed(&quiet, &[8]), "readings 0\n");
    assert_eq!(listed(&quiet, &[7; 3]), listed(&chain(), &[7; 3]));
    assert_eq!(output(Some(&quiet), Some(&[7])), "refused 14\n");
    assert_eq!(output(Some(&quiet), Some(&[7; 193])), "refused 8\n");
}

#[test]
fn versions_and_lengths() {
    let refused = |image: &[u8]| listed(image, &[]);
    let image = version_2(&largest(), 1);
    assert_eq!(refused(&image[..9]), "refused 1\n");
    assert_eq!(refused(&image[..10]), "refused 5\n");
    assert_eq!(refused(&image[..11]), "refused 5\n");
    assert_eq!(refused(&image[..2_314]), "refused 5\n");
    for more in [1, 2, 65_536] {
        let long = [image.clone(), vec![0; more]].concat();
        assert_eq!(refused(&long), "refused 5\n");
    }
    let version_3 = [&image[..3], &[3], &image[4..]].concat();
    assert_eq!(refused(&version_3), "refused 3\n");
    let unknown = faulty(image.clone(), &[600], &[]);
    assert_eq!(refused(&unknown), "refused 6 600\n");
    let repeated = faulty(image, &[], &[513]);
    assert_eq!(refused(&repeated), "refused 7 513\n");
}
