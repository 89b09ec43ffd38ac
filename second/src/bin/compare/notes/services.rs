//! The services by name, and what each can answer.

/// The numbers of each service that takes an image.
pub const NUMBERS: [(&str, &[u8]); 11] = [
    ("test", &[0, 1, 2, 3, 4, 5, 6, 7, 15]),
    ("judge", &[0, 1, 2, 3, 4, 5, 6, 7, 15, 8, 9]),
    ("count", &[0, 1, 2, 3, 4, 5, 6, 7, 15, 8, 10]),
    ("reading", &[0, 1, 2, 3, 4, 5, 6, 7, 15, 8, 10, 11, 12, 13]),
    ("check", &[0, 1, 2, 3, 4, 5, 6, 7, 15, 8]),
    ("number", &[0, 1, 2, 3, 4, 5, 6, 7, 15, 8, 10, 12, 13]),
    ("page", &[0, 1, 2, 3, 4, 5, 6, 7, 15, 8, 10, 11, 12, 13]),
    ("add", &[0, 1, 2, 3, 4, 5, 6, 7, 15, 17]),
    ("judge-bytes", &[0, 1, 2, 3, 4, 5, 6, 7, 15, 8, 14, 9]),
    ("count-bytes", &[0, 1, 2, 3, 4, 5, 6, 7, 15, 8, 14, 10]),
    (
        "reading-bytes",
        &[0, 1, 2, 3, 4, 5, 6, 7, 15, 8, 14, 10, 11, 12, 13],
    ),
];

pub fn numbers_of(service: &str) -> &'static [u8] {
    let found = NUMBERS.iter().find(|(name, _)| *name == service);
    found.expect("a service that takes an image").1
}

/// Those that take a record.
pub const OF_A_RECORD: [&str; 9] = [
    "judge",
    "count",
    "reading",
    "check",
    "number",
    "page",
    "judge-bytes",
    "count-bytes",
    "reading-bytes",
];
