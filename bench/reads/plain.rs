// Reads of an array of bytes in regular chunks, in plain safe Rust: key lines into a map, and the elements of each read printed.
use std::collections::BTreeMap;
use std::fmt::Write as _;
use std::io::{Read, Write};

// What follows a name in the document, up to its closing bracket, as numbers.
fn numbers(document: &str, name: &str) -> Vec<u64> {
    let from = document.find(name).expect("a field") + name.len();
    let text = &document[from..];
    let end = text.find(']').expect("a list");
    let list = &text[text.find('[').expect("a list") + 1..end];
    list.split(',').map(|n| n.trim().parse().expect("a number")).collect()
}

fn bytes(digits: &str) -> Option<Vec<u8>> {
    let digits = digits.strip_prefix('h')?.as_bytes();
    if digits.len() % 2 != 0 {
        return None;
    }
    let digit = |c: u8| (c as char).to_digit(16).map(|d| d as u8);
    digits.chunks_exact(2).map(|pair| Some(digit(pair[0])? << 4 | digit(pair[1])?)).collect()
}

fn ranges(text: &str) -> Option<Vec<(u64, u64)>> {
    text.split(',')
        .map(|range| {
            let (from, to) = range.split_once("..")?;
            Some((from.parse().ok()?, to.parse().ok()?))
        })
        .collect()
}

// The elements of a region of two dimensions, chunk by chunk.
fn read(
    store: &BTreeMap<String, Vec<u8>>,
    chunks: &[u64],
    region: &[(u64, u64)],
) -> Result<Vec<u8>, String> {
    let width = (region[1].1 - region[1].0) as usize;
    let mut elements = vec![0; (region[0].1 - region[0].0) as usize * width];
    for i in region[0].0 / chunks[0]..region[0].1.div_ceil(chunks[0]) {
        for j in region[1].0 / chunks[1]..region[1].1.div_ceil(chunks[1]) {
            let Some(value) = store.get(&format!("c/{i}/{j}")) else {
                continue;
            };
            if value.len() as u64 != chunks[0] * chunks[1] {
                return Err(format!("chunk c/{i}/{j}"));
            }
            let (left, right) = (region[1].0.max(j * chunks[1]), region[1].1.min((j + 1) * chunks[1]));
            let len = (right - left) as usize;
            for y in region[0].0.max(i * chunks[0])..region[0].1.min((i + 1) * chunks[0]) {
                let from = ((y - i * chunks[0]) * chunks[1] + left - j * chunks[1]) as usize;
                let to = (y - region[0].0) as usize * width + (left - region[1].0) as usize;
                elements[to..to + len].copy_from_slice(&value[from..from + len]);
            }
        }
    }
    Ok(elements)
}

fn main() {
    let mut input = String::new();
    std::io::stdin().read_to_string(&mut input).expect("an input");
    let mut lines = input.lines();
    let document = lines.next().expect("a document");
    let shape = numbers(document, "\"shape\":");
    let chunks = numbers(document, "\"chunk_shape\":");
    let mut store = BTreeMap::new();
    let mut reads = Vec::new();
    for line in lines {
        if let Some(entry) = line.strip_prefix("key ") {
            let (key, digits) = entry.split_once(' ').expect("a key line");
            store.insert(key.to_string(), bytes(digits).expect("digits"));
        } else {
            let region = ranges(line.strip_prefix("read ").expect("a read")).expect("ranges");
            reads.push(region);
        }
    }
    let mut out = String::new();
    for region in &reads {
        if region.len() != shape.len() || region.iter().zip(&shape).any(|(r, n)| r.1 > *n) {
            out.push_str("refused SubsetOutOfBounds\n");
            continue;
        }
        match read(&store, &chunks, region) {
            Ok(elements) => {
                out.push_str("ok");
                for element in elements {
                    write!(out, " h{element:02x}").expect("a text");
                }
                out.push('\n');
            }
            Err(error) => {
                println!("{error}");
                std::process::exit(5);
            }
        }
    }
    std::io::stdout().write_all(out.as_bytes()).expect("an output");
}
