//! The program print_tables: it prints all L-box and S-box tables.
//!
//! The variable PRINT_TABLES_BIN may name the program; else it is target/bin/print_tables at the
//! repository's root.

mod common;

use std::fs::{write, File};
use std::path::Path;
use std::process::{Command, Output, Stdio};

use common::program::program;
use reference::boxes::{iscream, scream, times};
use reference::tables::{Matrix, Sbox};

/// What the program prints to there, and how it ends.
fn run(output: Stdio) -> Output {
    let child = Command::new(program("print_tables"))
        .stdin(Stdio::null())
        .stdout(output)
        .stderr(Stdio::piped())
        .spawn()
        .expect("the program starts");
    child.wait_with_output().expect("the program ends")
}

/// The lines that it prints.
fn lines() -> Vec<String> {
    let output = run(Stdio::piped());
    assert!(output.status.success(), "{}", output.status);
    assert_eq!(String::from_utf8_lossy(&output.stderr), "");
    let text = String::from_utf8(output.stdout).expect("text");
    let text = text.strip_suffix('\n').expect("the last line is ended");
    text.split('\n').map(str::to_string).collect()
}

/// "16 lines of 16 two-digit hexadecimal entries, one blank between"; "capital letters, no line between
/// tables": so 47 bytes a line.
#[test]
fn how_it_looks() {
    let lines = lines();
    assert_eq!(lines.len(), 15 * 16);
    for (number, line) in (1..).zip(&lines) {
        assert_eq!(line.len(), 47, "line {number}: {line}");
        for (place, c) in line.chars().enumerate() {
            let blank = place % 3 == 2;
            let right = if blank {
                c == ' '
            } else {
                "0123456789ABCDEF".contains(c)
            };
            assert!(right, "line {number}, {place}: {line}");
        }
    }
}

/// L1,1, L1,2, L2,1 and L2,2 of a matrix. L1,1 and L1,2 are for the low byte of the word, the others for the
/// high one; L1,1 and L2,1 give the high byte of the product, the others the low one.
fn byte_tables(matrix: &Matrix) -> [Sbox; 4] {
    [(0, 8), (0, 0), (8, 8), (8, 0)].map(|(from, to)| {
        std::array::from_fn(|byte| (times(matrix, (byte as u16) << from) >> to) as u8)
    })
}

/// "L-boxes come first (each L1,1, L1,2, L2,1, L2,2), in each group Scream, its inverse, iScream".
#[test]
fn tables_of_the_second_implementation() {
    let [scream, iscream] = [scream(), iscream()];
    let l_boxes = [scream.l, scream.l_inverse, iscream.l].map(|matrix| byte_tables(&matrix));
    let s_boxes = [scream.s, scream.s_inverse, iscream.s].map(|table| *table);
    let tables = [l_boxes.concat(), s_boxes.to_vec()].concat();
    let lines = lines();
    assert_eq!(lines.len(), 16 * tables.len());
    for (number, (printed, table)) in lines.chunks(16).zip(&tables).enumerate() {
        for (row, (line, entries)) in printed.iter().zip(table.chunks(16)).enumerate() {
            let due: Vec<String> = entries.iter().map(|entry| format!("{entry:02X}")).collect();
            assert_eq!(*line, due.join(" "), "table {number} from 0, row {row:X}0");
        }
    }
}

/// Where nothing can be written it says so.
#[test]
fn no_output() {
    let file = Path::new(env!("CARGO_TARGET_TMPDIR")).join("print_tables_output");
    write(&file, "").expect("a file is written");
    let only_read = File::open(&file).expect("the file is there");
    let output = run(Stdio::from(only_read));
    assert!(output.status.code().is_some(), "{}", output.status);
    let said = String::from_utf8_lossy(&output.stderr);
    assert_eq!(said, "print_tables: not all tables could be written\n");
}
