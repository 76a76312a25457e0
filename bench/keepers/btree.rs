// The same paths in Rust's BTreeMap, as lists of parts.
use std::collections::BTreeMap;
use std::time::Instant;

const COUNT: u64 = 1_000_000;

struct Entry {
    _fields: [u64; 12],
}

fn name_at(place: u64, rising: bool) -> Vec<u8> {
    let number = if rising { place } else { place.wrapping_mul(0x9e37_79b9_7f4a_7c15) };
    format!("{number:016x}").into_bytes()
}

fn path_at(place: u64, rising: bool, flat: bool) -> Vec<Vec<u8>> {
    if flat {
        vec![b"top".to_vec(), name_at(place, rising)]
    } else {
        vec![b"top".to_vec(), name_at(place % 1_000, rising), name_at(place / 1_000, rising)]
    }
}

fn time(rising: bool, flat: bool) {
    let mut map: BTreeMap<Vec<Vec<u8>>, Entry> = BTreeMap::new();
    let start = Instant::now();
    for place in 0..COUNT {
        map.insert(path_at(place, rising, flat), Entry { _fields: [place; 12] });
    }
    let put = start.elapsed();
    let start = Instant::now();
    let mut found = 0u64;
    for place in 0..COUNT {
        if map.get(&path_at(place, rising, flat)).is_some() {
            found += 1;
        }
    }
    let find = start.elapsed();
    let order = if rising { "rising" } else { "mixed" };
    let shape = if flat { "one directory" } else { "a tree" };
    println!("BTreeMap {shape} {order}: put {} ms, find {} ms, found {found}", put.as_millis(), find.as_millis());
}

fn main() {
    time(true, true);
    time(false, true);
    time(false, false);
}
