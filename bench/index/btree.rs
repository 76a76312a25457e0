// The same keys in Rust's BTreeMap.
use std::collections::BTreeMap;
use std::time::Instant;

const COUNT: u64 = 1_000_000;

fn key_at(place: u64, rising: bool) -> u64 {
    if rising {
        place
    } else {
        place.wrapping_mul(0x9e37_79b9_7f4a_7c15) >> 20
    }
}

fn time(rising: bool) {
    let mut map: BTreeMap<u64, (u32, u32)> = BTreeMap::new();
    let start = Instant::now();
    for place in 0..COUNT {
        map.insert(key_at(place, rising), (7, 9));
    }
    let put = start.elapsed();
    let start = Instant::now();
    let mut sum = 0u64;
    for place in 0..COUNT {
        if let Some(spot) = map.get(&key_at(place, rising)) {
            sum += u64::from(spot.0);
        }
    }
    let got = start.elapsed();
    let order = if rising { "rising" } else { "mixed" };
    println!("BTreeMap {order}: put {} ms, get {} ms, sum {sum}", put.as_millis(), got.as_millis());
}

fn main() {
    time(true);
    time(false);
}
