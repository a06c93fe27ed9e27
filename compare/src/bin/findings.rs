//! Shows what the original does where a reader of docs/DIFFERENCES.md may want to see it: each line is
//! an input and what the original's own text made of it.

use compare::original::Resolver;
use std::time::Instant;
use waterbear::budget::{self, Ended};
use waterbear::disasm::disassemble;
use waterbear::disasm::probe::{self, CutOff};
use waterbear::expression::IndirectionMode;
use waterbear::instruction::Instr;

/// More visits than any input here needs.
const ENOUGH: u64 = 1 << 24;

fn main() {
    std::panic::set_hook(Box::new(|_| ())); // a panic is a finding, and is printed as one
    repeats();
    targets_outside();
    labels_outside();
    cut_off();
    data_runs();
    long_data();
    registers();
    bases();
}

/// A branch to its own next position doubles the visits of all that follows.
fn repeats() {
    for branches in [0, 1, 2, 3, 8, 16, 18, 20] {
        let mut image = [0x80, 0x00].repeat(branches);
        image.push(0xA0);
        let start = Instant::now();
        let traced = probe::trace(&[0], &image, ENOUGH);
        let (visits, time) = (budget::spent(), start.elapsed().as_millis());
        let positions = match traced {
            Ended::Answered(Ok(graph)) => graph.positions().len(),
            _ => panic!("the image is traced to its end"),
        };
        println!(
            "80 00 {branches} times, A0, entry 0: {visits} visits of {positions} positions, {time} ms"
        );
    }
}

fn targets_outside() {
    for (bytes, position) in [([0x01, 0x80], 0), ([0x01, 0x7F], 65_534), ([0x80, 0xFD], 0)] {
        let found = Instr::decode(&bytes).expect("a short branch has two bytes");
        let targets = probe::targets_alone(position, &found);
        println!("targets of {bytes:02X?} at {position}: {targets:?}");
    }
}

fn labels_outside() {
    for image in [
        &[0x01, 0x80][..],
        &[0x21, 0x12, 0x34],
        &[0xB8, 0x0D, 0x21, 0x00, 0x00],
    ] {
        for entry in [0, 2] {
            if let Ended::Answered(Ok(graph)) = probe::trace(&[entry], image, ENOUGH) {
                let (positions, labels) = (graph.positions(), graph.labels());
                println!("{image:02X?} entry {entry}: traced {positions:?}, labels {labels:?}");
            }
        }
    }
}

/// One instruction cut off anywhere, and nothing of the rest is answered.
fn cut_off() {
    let image = [0x80, 0x01, 0xA0, 0x68, 0x00];
    if let Ended::Answered(Err(CutOff(position, first))) = probe::trace(&[0], &image, ENOUGH) {
        println!("{image:02X?} entry 0: no graph, cut off at {position}, first byte {first:02X}");
    }
}

/// The original's data run may be asked for a position in the image, and with a whole mask, only.
fn data_runs() {
    let image = [0x41, 0x42];
    for (mask, position) in [(&[false; 2][..], 2), (&[false; 2], 3), (&[false], 0)] {
        let run = budget::within(ENOUGH, || {
            probe::data_run(&image, mask, position, 16).to_vec()
        });
        println!("data run of {image:02X?}, mask {mask:?}, at {position}: {run:02X?}");
    }
}

/// For every sixteen bytes of data that it lists, the original looks on to the end of all data there.
fn long_data() {
    for length in [16_384, 32_768, 65_536] {
        let image = vec![0x41; length];
        let start = Instant::now();
        let listed = disassemble(false, &[], &image).is_ok();
        let time = start.elapsed().as_millis();
        println!("41 {length} times, no entry: listed {listed}, {time} ms");
    }
}

fn registers() {
    for number in [3, 4] {
        let register = budget::within(ENOUGH, || IndirectionMode::from(number));
        println!("register {number}: {register:?}");
    }
}

/// The original takes any base; from 2^31 on its sums leave their type (a panic here, another number
/// where it is built without checks).
fn bases() {
    let resolver = Resolver::new();
    for (name, first, address, base) in [
        ("Jmp", 0x28, 0x1000, 0x1_1000),
        ("Br", 0x01, 65_535, 65_537),
        ("Br", 0x01, 0, 1 << 31),
        ("Brf", 0x11, 0, 1 << 31),
    ] {
        let form = compare::original::form(first);
        let operands = [address, 0, 0];
        let answer = budget::within(ENOUGH, || resolver.resolve(form, operands, base));
        println!("resolve {name} to {address}, base {base}: {answer:?}");
    }
}
