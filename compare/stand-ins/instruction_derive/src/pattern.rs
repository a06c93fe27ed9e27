//! The patterns: bytes parted by spaces, each of eight places from the highest bit down. A place is
//! `0`, `1` or a field's bit, as `[a8]` for bit 8 of the first operand.

pub enum Place {
    Fixed(u8),
    Field { operand: usize, bit: usize },
}

/// One byte: its eight places, the highest bit first.
pub struct Byte(pub Vec<Place>);

impl Byte {
    /// The places with the bit that each stands at.
    pub fn places(&self) -> impl Iterator<Item = (usize, &Place)> {
        self.0
            .iter()
            .enumerate()
            .map(|(index, place)| (7 - index, place))
    }

    /// The fixed bits' mask.
    pub fn mask(&self) -> u8 {
        self.fixed(|_| 1)
    }

    /// The fixed bits' values, and 0 at the fields' bits.
    pub fn value(&self) -> u8 {
        self.fixed(|value| value)
    }

    fn fixed(&self, bit: impl Fn(u8) -> u8) -> u8 {
        self.places().fold(0, |byte, (at, place)| match place {
            Place::Fixed(value) => byte | bit(*value) << at,
            Place::Field { .. } => byte,
        })
    }
}

pub fn read(text: &str) -> Vec<Byte> {
    text.split(' ').map(read_byte).collect()
}

fn read_byte(text: &str) -> Byte {
    let mut places = vec![];
    let mut rest = text.chars();
    while let Some(first) = rest.next() {
        places.push(match first {
            '0' => Place::Fixed(0),
            '1' => Place::Fixed(1),
            '[' => read_field(&rest.by_ref().take_while(|c| *c != ']').collect::<String>()),
            other => panic!("'{other}' in the pattern '{text}'"),
        });
    }
    assert!(places.len() == 8, "'{text}' is not a byte of eight places");
    Byte(places)
}

fn read_field(text: &str) -> Place {
    let (letter, bit) = text.split_at(1);
    Place::Field {
        operand: "abc".find(letter).expect("a field is named a, b or c"),
        bit: bit
            .parse()
            .expect("a field's bit has its number after the letter"),
    }
}
