//! Lists the tickets of a tag of four marks, the last of them wrong.

use kv::{list_of_reliabilities, Refusal, Settings, Sizes, LIMIT, SYMBOLS, WHOLE};

const SIZES: Sizes = Sizes { n: 4, k: 2 };
const SETTINGS: Settings = Settings {
    level: 1,
    limit: LIMIT,
};

fn main() -> Result<(), Refusal> {
    let mut reliabilities = [0; SYMBOLS * SIZES.n];
    for (position, mark) in [1, 1, 1, 2].into_iter().enumerate() {
        reliabilities[SYMBOLS * position + mark] = WHOLE;
    }
    let listed = list_of_reliabilities(SIZES, SETTINGS, &reliabilities)?;
    println!("listed {}", listed.rows.len());
    for row in listed.rows {
        println!(
            "score {} message {:x}{:x}",
            row.score, row.message[0], row.message[1]
        );
    }
    Ok(())
}
