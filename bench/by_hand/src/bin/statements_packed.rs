//! `statements_packed TICKS FILE`: the summary lines of `statements.sgl`.

use by_hand::packed::Summary;
use by_hand::read_words;

struct Unit {
    key: i32,
    x: i32,
    y: i32,
    speed: i32,
    energy: i32,
    heat: i32,
    food: i32,
    age: i32,
    mood: i32,
}

fn main() {
    let (ticks, records) = read_words::<9>("key,x,y,speed,energy,heat,food,age,mood");
    let mut units: Vec<Unit> = records.iter().map(unit).collect();
    let mut summary = Summary::new();
    summary.line(0, units.iter().map(values));
    for tick in 1..=ticks {
        units.iter_mut().for_each(live);
        units.retain(|unit| unit.energy > 0);
        summary.line(tick, units.iter().map(values));
    }
}

fn unit(&[key, x, y, speed, energy, heat, food, age, mood]: &[i32; 9]) -> Unit {
    Unit {
        key,
        x,
        y,
        speed,
        energy,
        heat,
        food,
        age,
        mood,
    }
}

fn values(u: &Unit) -> [i32; 8] {
    [u.x, u.y, u.speed, u.energy, u.heat, u.food, u.age, u.mood]
}

/// A tick of a unit. All effects are on the unit itself, so they need no table.
fn live(u: &mut Unit) {
    let (mut dx, mut dy, mut eaten, mut spent, mut found, mut warmth) = (0, 0, 0, 0, 0, 0);
    let (mut joy, mut fear) = (-3, 0);
    let across = u.x - 2048;
    let along = u.y - 2048;
    let away = across * across + along * along;
    let load = 1 + u.food / 8 + u.age / 16;
    let pace = 1 + u.speed * 6 / (2 + load);
    let drive = (u.energy * 7 + u.mood * 3 - u.heat * 2) / 8;
    let phase = (u.age * 13 + u.key * 7) % 24;
    let hot = u.heat > 60;
    if u.energy < 60 && u.food > 0 {
        let bite = 5 + (u.energy + u.food) % 7;
        eaten += bite;
        warmth += if hot { -1 } else { bite / 3 };
    } else {
        spent += (pace * 2 + load) / 3;
    }
    if away > 3_000_000 {
        dx += -across / 64;
        dy += -along / 64;
    } else if drive > 30 {
        dx += ((drive * 5 + phase) % 7 - 3) * pace;
        dy += ((drive * 3 + phase * 11) % 7 - 3) * pace;
    }
    if (6..18).contains(&phase) {
        let sun = 12 - (phase - 12) * (phase - 12) / 3;
        warmth += sun / 2;
        if sun > 8 && !hot {
            (joy, fear) = (joy.max(4), fear.min(0));
        }
    } else {
        warmth -= (u.heat - 20) / 8;
    }
    let skill = u.age % 17 * 2 + u.mood;
    let gain = skill * drive / (10 + away / 100_000);
    if gain > 20 || u.food < 5 {
        found += 3 + gain % 3;
        spent += 1 + load / 4;
    }
    let wish = 2 + (u.energy - u.heat / 2) / 16;
    let push = (wish - u.speed) / 2;
    if u.energy < 15 || u.heat > 80 {
        (joy, fear) = (joy.max(-2), fear.min(-9));
    }
    spent += 1 + u.age / 50;
    u.x += dx;
    u.y += dy;
    u.speed += push;
    u.energy += eaten - spent;
    u.heat += warmth;
    u.food += found - eaten;
    u.age += 1;
    u.mood = (u.mood * 3 + joy + fear) / 4;
}
