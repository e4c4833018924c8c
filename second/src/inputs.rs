//! Inputs for the program itself, with the answers to them, as files.

use crate::cases::little_endian_bytes;
use crate::chance::Chance;
use crate::named::{good_drafts, longest, refused_runs};
use crate::printing::{site, MOST_BYTES};
use crate::sheets::{any_sheet, hard_sheet, large};
use std::path::Path;

/// The seed of the inputs by chance.
const SEED: u64 = 4_972;

/// Writes each input as NAME.in and its answer as NAME.out in the folder.
pub fn write_all(folder: &str) -> Result<(), String> {
    std::fs::create_dir_all(folder).map_err(|error| format!("{folder}: {error}"))?;
    for (name, bytes) in all() {
        write(folder, &format!("{name}.in"), &bytes)?;
        write(folder, &format!("{name}.out"), site(&bytes).as_bytes())?;
    }
    Ok(())
}

fn write(folder: &str, name: &str, bytes: &[u8]) -> Result<(), String> {
    let path = Path::new(folder).join(name);
    std::fs::write(&path, bytes).map_err(|error| format!("{}: {error}", path.display()))
}

/// All inputs with their names.
fn all() -> Vec<(String, Vec<u8>)> {
    let mut inputs = Vec::new();
    for (name, draft) in good_drafts() {
        inputs.push((name.to_string(), little_endian_bytes(&draft.words())));
    }
    for (name, words, ..) in refused_runs() {
        inputs.push((format!("refused-{name}"), little_endian_bytes(&words)));
    }
    inputs.extend(lengths());
    inputs.extend(by_chance());
    inputs
}

/// Inputs of an odd number of bytes and around the greatest number.
pub fn lengths() -> Vec<(String, Vec<u8>)> {
    let longest = little_endian_bytes(&longest().words());
    let example = little_endian_bytes(&[3, 0, 1, 6, 6, 11, 0, 5, 2, 1, 2]);
    let resized = |bytes: &[u8], count: usize| {
        let mut bytes = bytes.to_vec();
        bytes.resize(count, 0);
        bytes
    };
    let named = [
        ("bytes-1", vec![3]),
        ("bytes-2", vec![3, 0]),
        ("bytes-11", resized(&example, 11)),
        ("example-less-a-byte", resized(&example, 21)),
        ("example-and-a-byte", resized(&example, 23)),
        ("example-and-a-word", resized(&example, 24)),
        ("longest-less-a-byte", resized(&longest, MOST_BYTES - 1)),
        ("longest-less-a-word", resized(&longest, MOST_BYTES - 2)),
        ("longest-and-a-byte", resized(&longest, MOST_BYTES + 1)),
        ("longest-and-a-word", resized(&longest, MOST_BYTES + 2)),
        ("zeroes-of-greatest-length", vec![0; MOST_BYTES]),
        ("example-then-zeroes-too-long", resized(&example, MOST_BYTES + 2)),
        ("far-too-long", resized(&example, 20_000)),
        ("far-too-long-and-odd", resized(&example, 20_001)),
    ];
    named.into_iter().map(|(name, bytes)| (name.to_string(), bytes)).collect()
}

/// Good descriptions by chance, many of them with 12 to 16 boards.
fn by_chance() -> Vec<(String, Vec<u8>)> {
    let chance = &mut Chance::from_seed(SEED);
    let mut inputs = Vec::new();
    for number in 0..60 {
        let draft = match number % 3 {
            0 => large(chance).draft,
            1 => hard_sheet(chance).draft,
            _ => any_sheet(chance).draft,
        };
        inputs.push((format!("site-{number}-of-{}-boards", draft.boards), little_endian_bytes(&draft.words())));
    }
    inputs
}
