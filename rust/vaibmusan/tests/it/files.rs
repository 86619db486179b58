//! The repository's fixed lists of files.
use std::path::PathBuf;

fn bytes(path: &str) -> Vec<u8> {
    let path = PathBuf::from(env!("CARGO_MANIFEST_DIR")).join("../..").join(path);
    std::fs::read(&path).unwrap_or_else(|e| panic!("{}: {e}", path.display()))
}

fn number(bytes: &[u8]) -> usize {
    bytes.iter().fold(0, |n, &b| n << 8 | usize::from(b))
}

/// tests/fixed/listed: files with their listings.
pub fn listed() -> Vec<(Vec<u8>, Vec<u8>)> {
    let (files, listings) = (bytes("tests/fixed/listed/files.bin"), bytes("tests/fixed/listed/listings.txt"));
    let (mut files, mut listings) = (&files[..], &listings[..]);
    let mut all = Vec::new();
    while !files.is_empty() {
        let (length, rest) = files.split_at(4);
        let (file, rest) = rest.split_at(number(length));
        files = rest;
        let head = listings.iter().position(|&b| b == b'\n').expect("a line `= NUMBER LENGTH NOTES`");
        let length = std::str::from_utf8(&listings[..head]).unwrap().split(' ').nth(2).unwrap().parse().unwrap();
        let (listing, rest) = listings[head + 1..].split_at(length);
        listings = rest;
        all.push((file.to_vec(), listing.to_vec()));
    }
    assert!(all.len() > 300);
    all
}

/// tests/fixed/judged: files with the number that judging must give.
pub fn judged() -> Vec<(u64, Vec<u8>)> {
    let cases = bytes("tests/fixed/judged/cases.bin");
    let mut rest = &cases[4..];
    let mut all = Vec::new();
    while !rest.is_empty() {
        let (file, behind) = rest[5..].split_at(number(&rest[1..5]));
        all.push((u64::from(rest[0]), file.to_vec()));
        rest = behind;
    }
    assert_eq!(all.len(), number(&cases[..4]));
    all
}

/// samples/offsets.nodes.
pub fn sample() -> Vec<u8> {
    bytes("samples/offsets.nodes")
}

/// samples/offsets.star.
pub fn source() -> Vec<u8> {
    bytes("samples/offsets.star")
}
