//! What the programs share: their words, the unit table, and the draws of a unit. Each script is
//! written twice: `plain`, as one writes it at first, and `packed`, with values of 32 bits in flat
//! lists, for which the compiler makes vector code.

pub mod packed;
pub mod plain;

/// The ticks and the records of the unit table, by the words `TICKS FILE`. The table has the given
/// header, rising keys, and no quotes, blanks or empty lines. Ends the program where words, header
/// or a field are others.
pub fn read_words<const N: usize>(header: &str) -> (u64, Vec<[i32; N]>) {
    let words: Vec<String> = std::env::args().skip(1).collect();
    let [ticks, file] = &words[..] else {
        panic!("usage: PROGRAM TICKS FILE")
    };
    let text = std::fs::read_to_string(file).expect("the unit table is read");
    let mut lines = text.lines();
    assert_eq!(
        lines.next(),
        Some(header),
        "the header is that of the script"
    );
    (
        ticks.parse().expect("TICKS is a number"),
        lines.map(record).collect(),
    )
}

fn record<const N: usize>(line: &str) -> [i32; N] {
    let mut fields = line.split(',');
    let record = [(); N].map(|()| fields.next().expect("a field").parse().expect("a number"));
    assert!(
        fields.next().is_none(),
        "a record has no more fields than the header"
    );
    record
}

/// The draw of a unit in a tick with seed 0: the first word of SplitMix64, shifted to 31 bits.
pub fn draw(tick: u64, key: u64, number: u64) -> i32 {
    let place = (tick << 48) + (key << 16) + number;
    let word = place.wrapping_add(0x9e37_79b9_7f4a_7c15);
    let word = (word ^ (word >> 30)).wrapping_mul(0xbf58_476d_1ce4_e5b9);
    let word = (word ^ (word >> 27)).wrapping_mul(0x94d0_49bb_1331_11eb);
    ((word ^ (word >> 31)) >> 33) as i32
}
