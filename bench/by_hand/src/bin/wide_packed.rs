//! `wide_packed TICKS FILE`: the summary lines of `wide.sgl`.

use by_hand::packed::{number_of, Grid, Seen, Summary};
use by_hand::read_words;

const RADIUS: i32 = 500;
const PLANE: i32 = 4096;

fn main() {
    let (ticks, records) = read_words::<5>("key,player,x,y,health");
    let mut units: Vec<Seen> = records
        .iter()
        .map(|&[_, player, x, y, health]| Seen {
            x,
            y,
            player,
            health,
        })
        .collect();
    let mut grid = Grid::new(RADIUS, PLANE);
    let mut summary = Summary::new();
    summary.line(0, units.iter().map(values));
    for tick in 1..=ticks {
        advance(&mut units, &mut grid);
        summary.line(tick, units.iter().map(values));
    }
}

fn values(unit: &Seen) -> [i32; 4] {
    [unit.player, unit.x, unit.y, unit.health]
}

fn advance(units: &mut Vec<Seen>, grid: &mut Grid) {
    grid.fill(units);
    let mut damage = vec![0; units.len()];
    // What a unit sees is in the grid, so it can move at once.
    for unit in units.iter_mut() {
        let view = grid.look(unit, RADIUS);
        let friends = view.all - view.foes;
        let (dx, dy) = if view.foes > friends {
            (2, 1)
        } else {
            (-1, -2)
        };
        if view.foes > 0 {
            damage[number_of(view.weakest)] += 1 + friends / (view.foes + 1);
        }
        unit.x += dx;
        unit.y += dy;
    }
    for (unit, damage) in units.iter_mut().zip(damage) {
        unit.health -= damage;
    }
    units.retain(|unit| unit.health > 0);
}
