//! Document 02 [3], 'No 360 degrees'. The original is not patched for it: where it prints a node or a mean anomaly of 360.0000 the port prints 0.0000. By the document
//! these two fields are compared modulo 360, and where one differs as printed the checksum of line 2 is not compared. Here the exact text is asked, which is that and
//! more: `  0.0000` where the original has 360.0000, else the original's field; and the checksums of the port's own lines in every case.
use crate::files::summed;
use crate::lines::{Fields, words};
use std::ops::Range;

/// The kinds whose answers end with the text of element lines.
pub const KINDS: [&str; 4] = ["lines", "turns", "fit_lines", "determine"];

/// Of these, the ones with a fit before the text.
const FITTED: [&str; 2] = ["fit_lines", "determine"];

/// Columns 18 to 25 and 44 to 51 of line 2: node and mean anomaly.
const ANGLES: [Range<usize>; 2] = [17..25, 43..51];

/// Line 2 as the port has to write it where the original writes this one: each of the two angles that is 360.0000 is 0.0000, and the checksum is then that of
/// the new line, counted by `files.rs`.
pub fn turned(line2: &[u8]) -> Vec<u8> {
    let mut line = line2.to_vec();
    for angle in ANGLES {
        if line[angle.clone()] == *b"360.0000" {
            line[angle].copy_from_slice(b"  0.0000");
        }
    }
    if line == line2 { line } else { summed(line) }
}

/// Name, line 1 and line 2; None where the text is not these, each with its end, or a line is not 69 bytes.
fn three(text: &[u8]) -> Option<[&[u8]; 3]> {
    let lines: Vec<&[u8]> = text.split(|&b| b == b'\n').collect();
    match lines[..] {
        [name, line1, line2, []] if line1.len() == 69 && line2.len() == 69 => Some([name, line1, line2]),
        _ => None,
    }
}

/// The whole text as the port has to write it where the original writes this one; None where it is no such text.
pub fn turned_text(text: &[u8]) -> Option<Vec<u8>> {
    let [name, line1, line2] = three(text)?;
    Some([name, line1, &turned(line2), b""].join(&b'\n'))
}

/// Whether the port's text is as it must be beside the original's. An angle below 360 degrees that is the original's modulo 360 is the original's own, or 0 for
/// 360: so the text has to be `turned_text`. Of the port's lines alone the checksums must be right and the two angles below 360 degrees, whatever the original has.
/// The right checksum is what `checksum` says: the judge's, handed in because the judge is built on this crate. `turned` has a count of its own, so that two sums
/// that know nothing of each other have to agree.
pub fn same_lines(original: &[u8], port: &[u8], checksum: fn(&str) -> u32) -> bool {
    let (Some(said), Some([_, line1, line2])) = (turned_text(original), three(port)) else {
        return false;
    };
    let right = |line: &[u8]| std::str::from_utf8(line).is_ok_and(|text| line[68] as u32 == b'0' as u32 + checksum(text));
    let below = |angle: Range<usize>| std::str::from_utf8(&line2[angle]).is_ok_and(|t| t.trim().parse::<f64>().is_ok_and(|v| v < 360.0));
    port == said && right(line1) && right(line2) && ANGLES.into_iter().all(below)
}

/// The text at the end of an answer, or Some(None) after a refusal, of the fit or of the lines; None where the answer has another shape.
fn text(kind: &str, fields: &[u64]) -> Option<Option<Vec<u8>>> {
    let f = &mut Fields::of(fields);
    let mut refusal = f.word()?;
    if FITTED.contains(&kind) && refusal == 0 {
        // Before the lines stand orbit, epoch, best sum, the log and four lists of biases.
        let _ = (f.floats::<4>()?, f.moment()?, f.float()?, f.list()?, f.list()?, f.list()?, f.list()?, f.list()?);
        refusal = f.word()?;
    }
    let text = if refusal == 0 { Some(f.bytes()?) } else { None };
    f.done().then_some(text)
}

/// Whether the port's answer, the fields behind '=', is as it must be beside the original's. An answer of another shape than the kind's agrees with none.
pub fn same(kind: &str, original: &str, port: &str, checksum: fn(&str) -> u32) -> bool {
    let (Some(said), Some(got)) = (words(original), words(port)) else {
        return false;
    };
    match (text(kind, &said), text(kind, &got)) {
        (Some(Some(lines)), Some(Some(port_lines))) => {
            let before = said.len() - lines.len().div_ceil(8);
            said.len() == got.len() && said[..before] == got[..before] && same_lines(&lines, &port_lines, checksum)
        }
        (Some(None), Some(None)) => said == got,
        _ => false,
    }
}
