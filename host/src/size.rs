//! The size of the static library: of its file, and of what a program that links all of it gets.

use std::path::Path;

/// The bits of a section's flags.
const WRITTEN: u64 = 1;
const LOADED: u64 = 2;
const CODE: u64 = 4;
/// The header of a member of an archive, and the bytes before the first.
const MEMBER: usize = 60;
const MAGIC: usize = 8;

/// What is loaded: code, constants and data that is written, in bytes.
#[derive(Default, Debug, PartialEq)]
pub struct Size {
    pub code: u64,
    pub constants: u64,
    pub data: u64,
}

/// The number of so many bytes at a place, lowest byte first.
fn number(bytes: &[u8], at: usize, length: usize) -> Option<u64> {
    let bytes = bytes.get(at..at + length)?;
    Some(
        bytes
            .iter()
            .rev()
            .fold(0, |n, &byte| n << 8 | u64::from(byte)),
    )
}

/// Adds the sections of a 64-bit object file.
fn add_object(size: &mut Size, object: &[u8]) -> Option<()> {
    let headers = number(object, 0x28, 8)? as usize;
    let each = number(object, 0x3A, 2)? as usize;
    for section in 0..number(object, 0x3C, 2)? as usize {
        let header = object.get(headers + section * each..)?;
        let (flags, bytes) = (number(header, 8, 8)?, number(header, 0x20, 8)?);
        match flags & (LOADED | CODE | WRITTEN) {
            flags if flags & LOADED == 0 => {}
            flags if flags & CODE != 0 => size.code += bytes,
            flags if flags & WRITTEN != 0 => size.data += bytes,
            _ => size.constants += bytes,
        }
    }
    Some(())
}

/// The size of all object files of an archive.
pub fn of_archive(archive: &[u8]) -> Option<Size> {
    let mut size = Size::default();
    let mut at = MAGIC;
    while at < archive.len() {
        let digits = archive.get(at + 48..at + 58)?;
        let length: usize = std::str::from_utf8(digits).ok()?.trim().parse().ok()?;
        let member = archive.get(at + MEMBER..at + MEMBER + length)?;
        if member.starts_with(b"\x7fELF") {
            add_object(&mut size, member)?;
        }
        at += MEMBER + length + length % 2;
    }
    Some(size)
}

/// Writes the table of the library's size. Could it be read?
pub fn size_table() -> bool {
    let library = Path::new(env!("TRAVELMAP_A"));
    let Some((file, size)) = std::fs::read(library)
        .ok()
        .and_then(|bytes| Some((bytes.len(), of_archive(&bytes)?)))
    else {
        println!("The library could not be read again.");
        return false;
    };
    println!("| library | file, bytes | code | constants | data |");
    println!("|---|---:|---:|---:|---:|");
    println!(
        "| libtravelmap.a, {} | {file} | {} | {} | {} |",
        std::env::consts::ARCH,
        size.code,
        size.constants,
        size.data
    );
    true
}
