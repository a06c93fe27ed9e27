//! An image that looks like a game: vectors, calls of the flash routines, a header with a title and icons,
//! routines with branches, loops and calls, and tables between them.

pub mod assembler;
pub mod routines;

use assembler::{Label, form};
use routines::Routines;

const SEED: u64 = 1;
/// Reset and the interrupts.
pub const VECTORS: [usize; 11] = [
    0x00, 0x03, 0x0B, 0x13, 0x1B, 0x23, 0x2B, 0x33, 0x3B, 0x43, 0x4B,
];
/// Where the flash routines are called, each at its own address.
pub const FLASH: [usize; 5] = [0x100, 0x110, 0x120, 0x130, 0x1F0];
const HEADER: usize = 0x200;

/// At least so many bytes.
pub fn image(length: usize) -> Vec<u8> {
    let mut game = Routines::new(SEED);
    let start = game.code.label();
    let handlers = vectors(&mut game, start);
    flash(&mut game);
    header(&mut game);
    for handler in handlers {
        game.routine(handler, "Reti");
    }
    while game.code.bytes.len() < length {
        let label = game.code.label();
        game.routine(label, "Ret");
        game.all.push(label);
    }
    game.code.place(start);
    main_loop(&mut game);
    game.table();
    game.code.finish()
}

/// A jump to the start, then interrupts that return at once or have a handler.
fn vectors(game: &mut Routines, start: Label) -> Vec<Label> {
    let mut handlers = vec![];
    for (index, at) in VECTORS.into_iter().enumerate() {
        game.code.go_to(at);
        match index {
            0 => game.code.to(form("Jmpf"), [0; 3], start),
            _ if index % 3 == 0 => game.code.plain(form("Reti"), [0; 3]),
            _ => {
                handlers.push(game.code.label());
                game.code
                    .to(form("Jmpf"), [0; 3], handlers[handlers.len() - 1]);
            }
        }
    }
    handlers
}

/// Not1 of 10D, 0 and a Jmpf, which goes to the flash routine at the same address.
fn flash(game: &mut Routines) {
    for at in FLASH {
        game.code.go_to(at);
        let routine = game.code.here();
        game.code.plain(form("Not1"), [0x10D, 0, 0]);
        game.code.to(form("Jmpf"), [0; 3], routine);
        game.code.plain(form("Ret"), [0; 3]);
        game.all.push(routine);
    }
}

/// A title, a description and icons.
fn header(game: &mut Routines) {
    game.code.go_to(HEADER);
    let text = format!(
        "{:16}{:32}{:16}",
        "POTTAGE WING", "A game-like image", "compare"
    );
    game.code.bytes.extend(text.as_bytes());
    game.code.bytes.extend([2, 0, 10, 0]);
    game.code.go_to(HEADER + 0x80);
    for _ in 0..16 {
        game.table();
    }
}

/// Calls what nothing else calls, but for some of them, which stay data.
fn main_loop(game: &mut Routines) {
    let again = game.code.here();
    for index in 0..game.all.len() {
        if !game.called.contains(&index) && index % 8 != 7 {
            game.call(index);
        }
    }
    game.code.to(form("Brf"), [0; 3], again);
}
