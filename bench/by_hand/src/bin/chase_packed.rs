//! `chase_packed TICKS FILE`: the summary lines of `chase.sgl`.

use by_hand::packed::{Grid, Seen, Summary};
use by_hand::read_words;

const RADIUS: i32 = 12;
const CELL: i32 = 32;
const PLANE: i32 = 4096;

fn main() {
    let (ticks, records) = read_words::<5>("key,player,x,y,health");
    let mut units: Vec<Seen> = records
        .iter()
        .map(|&[_, player, x, y, health]| Seen {
            x,
            y,
            player,
            health,
        })
        .collect();
    let mut grid = Grid::new(CELL, PLANE);
    let mut summary = Summary::new();
    summary.line(0, units.iter().map(values));
    for tick in 1..=ticks {
        advance(&mut units, &mut grid);
        summary.line(tick, units.iter().map(values));
    }
}

fn values(unit: &Seen) -> [i32; 4] {
    [unit.player, unit.x, unit.y, unit.health]
}

fn advance(units: &mut Vec<Seen>, grid: &mut Grid) {
    grid.fill(units);
    let moved: Vec<(i32, i32)> = units
        .iter()
        .map(|unit| match grid.nearest_foe(unit) {
            Some(foe) => ((units[foe].x - unit.x) / 8, (units[foe].y - unit.y) / 8),
            None => (0, 0),
        })
        .collect();
    // What a unit sees is in the grid, so it can move at once.
    for (unit, (dx, dy)) in units.iter_mut().zip(moved) {
        unit.health -= grid.foes_within(unit, RADIUS);
        unit.x += dx;
        unit.y += dy;
    }
    units.retain(|unit| unit.health > 0);
}
