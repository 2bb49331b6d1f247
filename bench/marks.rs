//! A mark file in plain Rust: the six system calls of a store, with nothing checked or kept beside them.
//!
//! `marks FILE COUNT` makes the file, stores COUNT marks and prints the nanoseconds that the stores took.

use std::env;
use std::fs::{self, File, OpenOptions};
use std::io;
use std::os::unix::fs::FileExt;
use std::time::Instant;

const SLOT_LEN: u64 = 128;

const FIELDS_AT: u64 = 8;

fn put(file: &File, at: u64, bytes: &[u8]) -> io::Result<()> {
    file.write_all_at(bytes, at)?;
    file.sync_data()
}

fn store(file: &File, slot: u64, fields: &[u8; 48]) -> io::Result<()> {
    put(file, slot, &[0])?;
    put(file, slot + FIELDS_AT, fields)?;
    put(file, slot, &[0x5A])
}

fn main() -> io::Result<()> {
    let words: Vec<String> = env::args().collect();
    let (path, count) = (&words[1], words[2].parse::<u64>().expect("a number"));
    let file = OpenOptions::new()
        .read(true)
        .write(true)
        .create_new(true)
        .open(path)?;
    let mut fields = [0; 48];
    fields[..4].copy_from_slice(&[0, 201, 0, 50]);
    put(&file, 0, &[0; 256])?;
    put(&file, FIELDS_AT, &fields)?;
    put(&file, 0, &[0x5A])?;
    // The first store finds the other gate closed; it makes its calls all the same.
    let start = Instant::now();
    for floor in 1..=count {
        fields[8..16].copy_from_slice(&floor.to_be_bytes());
        store(&file, SLOT_LEN * (floor % 2), &fields)?;
    }
    println!("{}", start.elapsed().as_nanos());
    fs::remove_file(path)
}
