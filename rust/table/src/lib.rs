//! A table file from lines "m r rounds leaves", one for each entry, numbered from 0. Empty lines and lines that start with # are left out.

use second::table::Table;
use second::Fault;

/// The fields of an entry, each in as many bytes as it has in the file, senior byte first.
fn entry(line: &str) -> Option<Vec<u8>> {
    let fields: Vec<&str> = line.split_whitespace().collect();
    let [m, r, rounds, leaves] = fields[..] else {
        return None;
    };
    let mut bytes = vec![m.parse().ok()?, r.parse().ok()?, rounds.parse().ok()?];
    bytes.extend(leaves.parse::<u32>().ok()?.to_be_bytes());
    Some(bytes)
}

/// The file's bytes, or what is wrong with the lines.
pub fn file(lines: &str) -> Result<Vec<u8>, String> {
    let lines: Vec<&str> = lines.lines().filter(|line| !line.trim().is_empty() && !line.starts_with('#')).collect();
    let mut bytes = b"WMT\x00\x01".to_vec();
    bytes.push(lines.len().try_into().map_err(|_| "more than 32 entries")?);
    for line in &lines {
        bytes.extend(entry(line).ok_or(format!("not \"m r rounds leaves\": {line}"))?);
    }
    match Table::load(&bytes, Fault::None) {
        Ok(_) => Ok(bytes),
        Err(answer) if answer.refusal == 20 => {
            Err(format!("refused 20, entry {}: {}", answer.place, lines[answer.place]))
        }
        Err(answer) => Err(format!("refused {}: 1 to 32 entries are asked, not {}", answer.refusal, lines.len())),
    }
}
