//! `chase_plain TICKS FILE`: the summary lines of `chase.sgl`, by a plain program.

use by_hand::plain::{fighter, print_fighters, Cells, Fighter};
use by_hand::read_words;

const RADIUS: i64 = 12;
// So wide are cells, and so far a unit looks at first; twice as far each time that it sees no foe.
const REACH: i64 = 32;
// Further than any other unit.
const FAR: i64 = 16_384;

fn main() {
    let (ticks, records) = read_words::<5>("key,player,x,y,health");
    let mut units: Vec<Fighter> = records.iter().map(fighter).collect();
    print_fighters(0, &units);
    for tick in 1..=ticks {
        advance(&mut units);
        print_fighters(tick, &units);
    }
}

fn squared_distance(a: &Fighter, b: &Fighter) -> i64 {
    (a.x - b.x).pow(2) + (a.y - b.y).pow(2)
}

/// The number of the nearest foe, and of foes as near that with the least key.
fn nearest(units: &[Fighter], cells: &Cells, unit: &Fighter) -> Option<usize> {
    let mut reach = REACH;
    loop {
        let foes = cells.foes(unit, &cells.near(unit, reach));
        let nearest = foes
            .into_iter()
            .min_by_key(|&foe| (squared_distance(unit, &units[foe]), units[foe].key));
        // One that is farther than the window reaches may have a nearer one outside of it.
        let is_sure = |&foe: &usize| squared_distance(unit, &units[foe]) <= reach * reach;
        if nearest.as_ref().is_some_and(is_sure) || reach >= FAR {
            return nearest;
        }
        reach *= 2;
    }
}

fn advance(units: &mut Vec<Fighter>) {
    let mut damage = vec![0; units.len()];
    let mut moved = vec![(0, 0); units.len()];
    let cells = Cells::new(units, REACH);
    for (number, unit) in units.iter().enumerate() {
        if let Some(foe) = nearest(units, &cells, unit) {
            let foe = &units[foe];
            moved[number] = ((foe.x - unit.x) / 8, (foe.y - unit.y) / 8);
        }
        let around = cells.foes(unit, &cells.near(unit, RADIUS));
        let is_near = |&&foe: &&usize| squared_distance(unit, &units[foe]) <= RADIUS * RADIUS;
        damage[number] = around.iter().filter(is_near).count() as i64;
    }
    for (number, unit) in units.iter_mut().enumerate() {
        unit.x += moved[number].0;
        unit.y += moved[number].1;
        unit.health -= damage[number];
    }
    units.retain(|unit| unit.health > 0);
}
