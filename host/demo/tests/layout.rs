//! examples/torque/torque.map, for `./desk run`, has the pages with which the demo runs.

const MAP: &str = include_str!("../../../examples/torque/torque.map");

fn number(text: &str) -> u64 {
    u64::from_str_radix(text.strip_prefix("0x").unwrap(), 16).unwrap()
}

/// Page number and leaf of a line `VIRTUAL -> PHYSICAL FLAGS`; V, A and D are set unless it says otherwise.
fn entry(line: &str) -> [u64; 2] {
    let words: Vec<&str> = line.split_whitespace().collect();
    let [page, "->", frame, may, "u"] = words[..] else {
        panic!("not a line of this map: {line}")
    };
    let bits = match may {
        "r-x" => 0b1010,
        "rw-" => 0b0110,
        "shadow" => 0b0100,
        _ => panic!("not a permission of this map: {may}"),
    };
    [
        number(page) >> 12,
        number(frame) >> 12 << 10 | bits | 0b1101_0001,
    ]
}

#[test]
fn the_map_file_is_the_demos_map() {
    let lines = MAP
        .lines()
        .map(|line| line.split('#').next().unwrap().trim());
    let words: Vec<u64> = lines
        .filter(|line| !line.is_empty())
        .flat_map(entry)
        .collect();
    assert_eq!(words, demo::layout::map());
}
