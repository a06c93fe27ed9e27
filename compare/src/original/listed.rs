//! What the original lists of an image, in document 01's words. The original prints another text. Read off here
//! are the statements of its `disassemble`, in their order: labels, overlaps, arrivals, instructions with the
//! operands that it shows, and data. Its other comments, its origins and its names are left out.

use crate::paper::{self, Kind};
use std::collections::HashMap;
use std::fmt::Write;
use std::sync::LazyLock;
use waterbear::ast::{ByteValue, Directive, Statement};
use waterbear::disasm::{DStatement, disassemble};
use waterbear::expression::{Expr, IndirectionMode};
use waterbear::instruction::Instr;

const OVERLAPS: &str = "Overlaps with: ";
const ARRIVALS: &str = "Arrived from: ";
const LABEL: &str = "label_";
/// The highest position that a target is printed for.
const HIGHEST: i64 = pottagewing::HIGHEST_ADDRESS as i64;

/// The listing of an image that the original traces to its end, which it does here without a limit.
pub fn text(entries: &[u32], image: &[u8], arrivals: bool) -> String {
    let mut text = String::new();
    let mut overlaps = None;
    for made in statements(entries, image, arrivals) {
        match made.statement() {
            Statement::Label(_, name) => line(&mut text, 'L', value(name), &[]),
            Statement::Comment(words) => {
                overlaps = words.strip_prefix(OVERLAPS).map(fields).or(overlaps);
            }
            Statement::Instr(_, instruction) => {
                let at = position(&made);
                if let Some(places) = overlaps.take() {
                    line(&mut text, 'O', at, &places);
                }
                if let Some(words) = made.cmt() {
                    line(&mut text, 'A', at, &fields(&words[ARRIVALS.len()..]));
                }
                let bytes = &image[at as usize..][..instruction.size()];
                line(&mut text, 'I', at, &shown(instruction, bytes));
            }
            Statement::Directive(Directive::Byte(_, bytes)) => {
                let data: String = bytes.iter().map(byte).collect();
                line(&mut text, 'D', position(&made), &[data]);
            }
            _ => (),
        }
    }
    text
}

fn statements(entries: &[u32], image: &[u8], arrivals: bool) -> Vec<DStatement> {
    let entries: Vec<usize> = entries.iter().map(|entry| *entry as usize).collect();
    let listed = disassemble(arrivals, &entries, image);
    listed.expect("an image traced to its end").to_vec()
}

fn position(made: &DStatement) -> i64 {
    made.pos().expect("code and data have a position") as i64
}

fn line(text: &mut String, letter: char, at: i64, fields: &[String]) {
    write!(text, "{letter}\t{at:04X}").expect("a text takes all");
    for field in fields {
        write!(text, "\t{field}").expect("a text takes all");
    }
    text.push('\n');
}

fn fields(words: &str) -> Vec<String> {
    words.split(", ").map(str::to_string).collect()
}

fn byte(value: &ByteValue) -> String {
    match value {
        ByteValue::Expr(Expr::Number(_, number, _)) => format!("{number:02X}"),
        _ => panic!("the original lists data as plain numbers"),
    }
}

/// The fields of an instruction. Its operands stand after its mnemonic and some spaces.
fn shown(instruction: &Instr<Expr, IndirectionMode>, bytes: &[u8]) -> Vec<String> {
    let words = instruction.to_string();
    let (mnemonic, operands) = words.split_once(' ').unwrap_or((&words, ""));
    let operands = operands.trim_start().split(", ");
    let kinds = paper::kinds(instruction.form()).iter().zip(operands);
    let hex = bytes.iter().map(|byte| format!("{byte:02X}")).collect();
    let mut list = vec![hex, mnemonic.to_string()];
    list.extend(kinds.map(|(kind, words)| operand(*kind, words)));
    list
}

/// An operand that the original shows as these words.
fn operand(kind: Kind, words: &str) -> String {
    match kind {
        Kind::Immediate => format!("#{:02X}", value(words.strip_prefix('#').unwrap_or(""))),
        Kind::Register => words.to_string(),
        Kind::Cell => format!("{:03X}", value(words)),
        Kind::Bit => format!("{}", value(words)),
        _ => match value(words) {
            address @ 0..=HIGHEST => format!("{address:04X}"),
            _ => "?".to_string(),
        },
    }
}

/// The value of a number, a label or a name. A label below 0 is one of 64 bits.
fn value(words: &str) -> i64 {
    if let Some(digits) = words.strip_prefix('$') {
        return i64::from_str_radix(digits, 16).expect("a number");
    }
    if let Some(digits) = words.strip_prefix(LABEL) {
        return u64::from_str_radix(digits, 16).expect("a label") as i64;
    }
    NAMES[words]
}

/// The names of memory cells and bits, which the original lists after every image.
static NAMES: LazyLock<HashMap<String, i64>> = LazyLock::new(|| {
    let mut names = HashMap::new();
    for made in statements(&[], &[], false) {
        if let Statement::Alias(_, name, Expr::Number(_, number, _)) = made.statement() {
            let before = names.insert(name.clone(), i64::from(*number));
            assert!(before.is_none(), "{name} names one number");
        }
    }
    names
});
