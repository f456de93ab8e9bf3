//! What the plain programs share: units of wide numbers, the lines that they print, and a grid of lists.
//! This is how one writes such a program at first: `HashMap`, `Vec`, numbers of 64 bits, as in the engine.

use std::collections::HashMap;

/// A unit of the scripts that look at others.
#[derive(Clone)]
pub struct Fighter {
    pub key: u64,
    pub player: i64,
    pub x: i64,
    pub y: i64,
    pub health: i64,
}

/// A fighter by its record.
pub fn fighter(&[key, player, x, y, health]: &[i32; 5]) -> Fighter {
    Fighter {
        key: key as u64,
        player: player.into(),
        x: x.into(),
        y: y.into(),
        health: health.into(),
    }
}

/// Prints the line of a world, by the values of each unit.
pub fn print_line<const N: usize>(tick: u64, units: impl Iterator<Item = [i64; N]>) {
    let (mut count, mut sums) = (0, [0; N]);
    for values in units {
        count += 1;
        for (sum, value) in sums.iter_mut().zip(values) {
            *sum += value;
        }
    }
    let sums = sums.map(|sum: i64| sum.to_string()).join(" ");
    println!("tick {tick} units {count} sums {sums}");
}

/// Prints the line of a world of fighters.
pub fn print_fighters(tick: u64, units: &[Fighter]) {
    print_line(tick, units.iter().map(|u| [u.player, u.x, u.y, u.health]));
}

/// The numbers of the fighters of a tick, by square cells.
pub struct Cells<'a> {
    units: &'a [Fighter],
    width: i64,
    cells: HashMap<(i64, i64), Vec<usize>>,
}

impl<'a> Cells<'a> {
    /// The fighters in cells of a width.
    pub fn new(units: &'a [Fighter], width: i64) -> Cells<'a> {
        let mut cells: HashMap<(i64, i64), Vec<usize>> = HashMap::new();
        for (number, unit) in units.iter().enumerate() {
            let cell = (unit.x.div_euclid(width), unit.y.div_euclid(width));
            cells.entry(cell).or_default().push(number);
        }
        Cells {
            units,
            width,
            cells,
        }
    }

    /// The numbers of all that are as far away as the radius, in each direction.
    pub fn near(&self, unit: &Fighter, radius: i64) -> Vec<usize> {
        let cell = |place: i64| place.div_euclid(self.width);
        let mut found = Vec::new();
        for x in cell(unit.x - radius)..=cell(unit.x + radius) {
            for y in cell(unit.y - radius)..=cell(unit.y + radius) {
                for &number in self.cells.get(&(x, y)).into_iter().flatten() {
                    let other = &self.units[number];
                    if (other.x - unit.x).abs() <= radius && (other.y - unit.y).abs() <= radius {
                        found.push(number);
                    }
                }
            }
        }
        found
    }

    /// The foes among these.
    pub fn foes(&self, unit: &Fighter, around: &[usize]) -> Vec<usize> {
        let is_foe = |number: &usize| self.units[*number].player != unit.player;
        around.iter().copied().filter(is_foe).collect()
    }

    /// The number of the weakest of these, and of equal ones that with the least key.
    pub fn weakest(&self, foes: &[usize]) -> Option<usize> {
        foes.iter()
            .copied()
            .min_by_key(|&number| (self.units[number].health, self.units[number].key))
    }
}
