//! `wide_plain TICKS FILE`: the summary lines of `wide.sgl`, by a plain program.

use by_hand::plain::{fighter, print_fighters, Cells, Fighter};
use by_hand::read_words;

const RADIUS: i64 = 500;

fn main() {
    let (ticks, records) = read_words::<5>("key,player,x,y,health");
    let mut units: Vec<Fighter> = records.iter().map(fighter).collect();
    print_fighters(0, &units);
    for tick in 1..=ticks {
        advance(&mut units);
        print_fighters(tick, &units);
    }
}

fn advance(units: &mut Vec<Fighter>) {
    let mut damage = vec![0; units.len()];
    let mut moved = vec![(0, 0); units.len()];
    let cells = Cells::new(units, RADIUS);
    for (number, unit) in units.iter().enumerate() {
        let around = cells.near(unit, RADIUS);
        let foes = cells.foes(unit, &around);
        let friends = around.len() - foes.len();
        moved[number] = if foes.len() > friends {
            (2, 1)
        } else {
            (-1, -2)
        };
        if let Some(weakest) = cells.weakest(&foes) {
            damage[weakest] += 1 + (friends / (foes.len() + 1)) as i64;
        }
    }
    for (number, unit) in units.iter_mut().enumerate() {
        unit.x += moved[number].0;
        unit.y += moved[number].1;
        unit.health -= damage[number];
    }
    units.retain(|unit| unit.health > 0);
}
