//! `clustered_plain TICKS FILE`: the summary lines of `clustered.sgl` with seed 0, by a plain program.

use by_hand::plain::{fighter, print_fighters, Cells, Fighter};
use by_hand::{draw, read_words};

const CELL: i64 = 32;

/// What is done to the units in a tick, by their numbers.
struct Effects {
    damage: Vec<i64>,
    moved: Vec<(i64, i64)>,
    fear: Vec<i64>,
}

fn main() {
    let (ticks, records) = read_words::<5>("key,player,x,y,health");
    let mut units: Vec<Fighter> = records.iter().map(fighter).collect();
    print_fighters(0, &units);
    for tick in 0..ticks {
        advance(tick, &mut units);
        print_fighters(tick + 1, &units);
    }
}

fn advance(tick: u64, units: &mut Vec<Fighter>) {
    let mut effects = Effects {
        damage: vec![0; units.len()],
        moved: vec![(0, 0); units.len()],
        fear: vec![0; units.len()],
    };
    let cells = Cells::new(units, CELL);
    for (number, unit) in units.iter().enumerate() {
        act(tick, number, unit, &cells, &mut effects);
    }
    for (number, unit) in units.iter_mut().enumerate() {
        unit.x += effects.moved[number].0;
        unit.y += effects.moved[number].1;
        unit.health -= effects.damage[number] + effects.fear[number];
    }
    units.retain(|unit| unit.health > 0);
}

fn act(tick: u64, number: usize, unit: &Fighter, cells: &Cells, effects: &mut Effects) {
    let around = cells.near(unit, 20);
    let foes = cells.foes(unit, &around);
    let friends = around.len() - foes.len();
    let Some(weakest) = cells.weakest(&foes) else {
        let step = |index| i64::from(draw(tick, unit.key, index) % 3 - 1);
        effects.moved[number] = (step(1), step(2));
        return;
    };
    if foes.len() > friends + 2 {
        effects.moved[number] = (2, 2);
        return;
    }
    effects.damage[weakest] += 4;
    for foe in cells.foes(unit, &cells.near(unit, 4)) {
        effects.fear[foe] = 1;
    }
}
