//! Decimal digits by the lent table, and the table, by the program `cases`,
//! which makes the calls of the library's own crate.

use std::fmt::Write;

use shortest_check::program::run_cases;
use shortest_check::reference::generate::Random;

const ROOM: usize = 20;

/// Numbers with none, some and all of their groups 0, written by hand.
const NUMBERS: [(u64, &str); 24] = [
    (0, "0"),
    (9, "9"),
    (10, "10"),
    (99, "99"),
    (100, "100"),
    (999, "999"),
    (1_000, "1000"),
    (1_001, "1001"),
    (1_010, "1010"),
    (1_100, "1100"),
    (9_999, "9999"),
    (10_000, "10000"),
    (99_999, "99999"),
    (100_000, "100000"),
    (999_999, "999999"),
    (1_000_000, "1000000"),
    (1_002_003, "1002003"),
    (100_000_000, "100000000"),
    (4_294_967_295, "4294967295"),
    (1_000_000_000_000, "1000000000000"),
    (1_002_003_004_005_006_007, "1002003004005006007"),
    (9_999_999_999_999_999_999, "9999999999999999999"),
    (10_000_000_000_000_000_000, "10000000000000000000"),
    (18_446_744_073_709_551_615, "18446744073709551615"),
];

/// Places of the table and their entries, worked out by hand.
const ENTRIES: [(u16, u16); 11] = [
    (0, 0),
    (7, 7),
    (10, 16),
    (99, 153),
    (100, 256),
    (123, 291),
    (255, 597),
    (500, 1_280),
    (909, 2_313),
    (990, 2_448),
    (999, 2_457),
];

/// A case: a letter, then bytes in hexadecimal.
fn add_case(lines: &mut String, letter: char, bytes: &[u8]) {
    lines.push(letter);
    for byte in bytes {
        write!(lines, "{byte:02X}").unwrap();
    }
    lines.push('\n');
}

/// Each number's digits, how many they are, and how many of the buffer's 20
/// bytes are as they were.
fn check_decimals(expected: &[(u64, String)]) {
    let mut lines = String::new();
    for (number, _) in expected {
        add_case(&mut lines, 'd', &number.to_le_bytes());
    }
    let found = run_cases(lines.as_bytes());
    assert_eq!(found.lines().count(), expected.len());
    for (line, (number, digits)) in found.lines().zip(expected) {
        let count = digits.len();
        let whole = format!("{digits} {count} {}", ROOM - count);
        assert_eq!(line, whole, "{number}");
    }
}

/// What the table has at these places.
fn entries(places: impl Iterator<Item = u16>) -> Vec<String> {
    let mut lines = String::new();
    for place in places {
        add_case(&mut lines, 'e', &place.to_le_bytes());
    }
    let found = run_cases(lines.as_bytes());
    found.lines().map(str::to_string).collect()
}

#[test]
fn numbers_by_hand() {
    check_decimals(&NUMBERS.map(|(number, digits)| (number, digits.to_string())));
}

#[test]
fn numbers_of_every_length() {
    let random = &mut Random::new(5);
    let mut numbers: Vec<u64> = (0..10_000).collect();
    for power in (0..20).map(|digits| 10_u64.pow(digits)) {
        numbers.extend([power - 1, power, power + 1]);
        numbers.extend((1..=9).filter_map(|digit| power.checked_mul(digit)));
    }
    numbers.extend((0..10_000).map(|_| {
        let bits = random.below(64);
        random.number() >> bits
    }));
    let expected: Vec<(u64, String)> = numbers.iter().map(|n| (*n, n.to_string())).collect();
    for count in 1..=20 {
        assert!(expected.iter().any(|(_, digits)| digits.len() == count));
    }
    check_decimals(&expected);
}

#[test]
fn entries_by_hand() {
    let found = entries(ENTRIES.iter().map(|(place, _)| *place));
    assert_eq!(found, ENTRIES.map(|(_, entry)| entry.to_string()));
}

#[test]
fn entries_by_the_rule() {
    let expected = (0..1_000).map(|n: u16| {
        let (hundreds, tens, units) = (n / 100, n / 10 % 10, n % 10);
        (hundreds * 256 + tens * 16 + units).to_string()
    });
    assert_eq!(entries(0..1_000), expected.collect::<Vec<String>>());
    assert_eq!(entries([1_000, 65_535].into_iter()), ["", ""]);
}
