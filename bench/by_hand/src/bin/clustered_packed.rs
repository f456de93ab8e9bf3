//! `clustered_packed TICKS FILE`: the summary lines of `clustered.sgl` with seed 0.

use by_hand::packed::{number_of, Grid, Seen, Summary};
use by_hand::{draw, read_words};

const CELL: i32 = 32;
const PLANE: i32 = 4096;

/// What is done to the units in a tick, by their numbers.
struct Effects {
    damage: Vec<i32>,
    fear: Vec<i32>,
}

fn main() {
    let (ticks, records) = read_words::<5>("key,player,x,y,health");
    let mut keys: Vec<i32> = records.iter().map(|record| record[0]).collect();
    let mut units: Vec<Seen> = records
        .iter()
        .map(|&[_, player, x, y, health]| Seen {
            x,
            y,
            player,
            health,
        })
        .collect();
    let mut grid = Grid::new(CELL, PLANE);
    let mut summary = Summary::new();
    summary.line(0, units.iter().map(values));
    for tick in 0..ticks {
        advance(tick, &mut keys, &mut units, &mut grid);
        summary.line(tick + 1, units.iter().map(values));
    }
}

fn values(unit: &Seen) -> [i32; 4] {
    [unit.player, unit.x, unit.y, unit.health]
}

fn advance(tick: u64, keys: &mut Vec<i32>, units: &mut Vec<Seen>, grid: &mut Grid) {
    grid.fill(units);
    let mut effects = Effects {
        damage: vec![0; units.len()],
        fear: vec![0; units.len()],
    };
    // What a unit sees is in the grid, so it can move at once.
    for (unit, key) in units.iter_mut().zip(keys.iter()) {
        let (dx, dy) = act(tick, *key, unit, grid, &mut effects);
        unit.x += dx;
        unit.y += dy;
    }
    for (number, unit) in units.iter_mut().enumerate() {
        unit.health -= effects.damage[number] + effects.fear[number];
    }
    let mut stays = units.iter().map(|unit| unit.health > 0);
    keys.retain(|_| stays.next() == Some(true));
    units.retain(|unit| unit.health > 0);
}

/// What a unit does; gives how it moves.
fn act(tick: u64, key: i32, unit: &Seen, grid: &Grid, effects: &mut Effects) -> (i32, i32) {
    let view = grid.look(unit, 20);
    if view.foes == 0 {
        let key = key as u64;
        return (draw(tick, key, 1) % 3 - 1, draw(tick, key, 2) % 3 - 1);
    }
    if view.foes > view.all - view.foes + 2 {
        return (2, 2);
    }
    effects.damage[number_of(view.weakest)] += 4;
    grid.each_foe(unit, 4, |number| effects.fear[number] = 1);
    (0, 0)
}
