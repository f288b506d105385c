//! Elements in another order of their dimensions, as plain loops over strides that check each index.
//!
//! `rustc -O bench/transpose/plain.rs` builds it. Its words are those of `moves.rt.txt`, and `s`, which takes the rows of
//! `r` element by element.

use std::env;
use std::hint::black_box;

/// Elements of one byte.
#[inline(never)]
fn bytes(items: &[u8], shape: [usize; 2], strides: [usize; 2]) -> Vec<u8> {
    let mut out = Vec::with_capacity(items.len());
    for i in 0..shape[0] {
        for j in 0..shape[1] {
            out.push(items[i * strides[0] + j * strides[1]]);
        }
    }
    out
}

/// Pieces of so many bytes: elements, or rows of elements that stay together. Strides are in bytes.
#[inline(never)]
fn pieces(items: &[u8], size: usize, shape: [usize; 2], strides: [usize; 2]) -> Vec<u8> {
    let mut out = Vec::with_capacity(items.len());
    for i in 0..shape[0] {
        for j in 0..shape[1] {
            let at = i * strides[0] + j * strides[1];
            out.extend_from_slice(&items[at..at + size]);
        }
    }
    out
}

/// Elements of three dimensions, one by one.
#[inline(never)]
fn elements(items: &[u8], size: usize, shape: [usize; 3], strides: [usize; 3]) -> Vec<u8> {
    let mut out = Vec::with_capacity(items.len());
    for i in 0..shape[0] {
        for j in 0..shape[1] {
            for k in 0..shape[2] {
                let at = i * strides[0] + j * strides[1] + k * strides[2];
                out.extend_from_slice(&items[at..at + size]);
            }
        }
    }
    out
}

fn main() {
    let mode = env::args().nth(1).unwrap_or_default();
    let size = match mode.as_str() {
        "b" | "x" => 262144,
        "o" | "z" => 786432,
        _ => 1048576,
    };
    let mut total = 0;
    for _ in 0..10 {
        let items = black_box(vec![7u8; size]);
        let out = match mode.as_str() {
            "b" => bytes(&items, black_box([512, 512]), black_box([1, 512])),
            "r" => pieces(&items, black_box(256), black_box([64, 64]), black_box([256, 16384])),
            "s" => elements(&items, black_box(4), black_box([64, 64, 64]), black_box([256, 16384, 4])),
            "e" => pieces(&items, black_box(4), black_box([512, 512]), black_box([4, 2048])),
            "o" => pieces(&items, black_box(3), black_box([512, 512]), black_box([3, 1536])),
            _ => Vec::new(),
        };
        total += black_box(out).len();
    }
    println!("{total}");
}
