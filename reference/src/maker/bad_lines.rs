//! Lines that are none, and lines at their limits.

use super::Lines;
use super::random::Random;

const GOOD: [&str; 23] = [
    "image 0102",
    "write 3",
    "sensitive",
    "store array 4",
    "store hash 4",
    "store window 1 5 array 4",
    "store window 4294967294 5 hash 4",
    "put 1 code 2",
    "put 1 data 2 3 4",
    "drop 1",
    "get 1",
    "takes 1",
    "begin",
    "memory 5",
    "poke 1 2",
    "peek 1",
    "digest",
    "step",
    "go 2",
    "frames",
    "entries",
    "status",
    "# a remark",
];

const WORDS: [&[u8]; 34] = [
    b"",
    b"0",
    b"007",
    b"65536",
    b"65537",
    b"65538",
    b"70000",
    b"70001",
    b"4294967295",
    b"4294967296",
    b"00000000000000000004294967295",
    b"99999999999999999999999999999",
    b"-1",
    b"+1",
    b"1.",
    b"x",
    b"1x",
    b"0x10",
    b"99999999999x",
    b"code",
    b"data",
    b"array",
    b"hash",
    b"window",
    b"list",
    b"plain",
    b"begin",
    b"#",
    b"\t1",
    b"1\r",
    b"\xff\x00",
    b"AB",
    b"abc",
    b"ag",
];

pub fn make(random: &mut Random, lines: &mut Lines) {
    for _ in 0..random.between(5, 40) {
        let good = random.pick(&GOOD);
        let mut words: Vec<Vec<u8>> = good.split(' ').map(|word| word.into()).collect();
        for _ in 0..random.pick(&[0, 1, 1, 1, 2]) {
            change(random, &mut words);
        }
        let blanks: &[u8] = if random.chance(10) { b"  " } else { b" " };
        let mut line = words.join(blanks);
        if random.chance(5) {
            line.insert(0, b' ');
        }
        if random.chance(5) {
            line.push(b' ');
        }
        lines.add(line);
    }
    if random.chance(20) {
        lines.add("");
        lines.add("put 1 data 2 5 5 6");
        lines.add("put 1 data 2 65536 65537");
        lines.add("put 1 data 2 65535 65537");
        lines.add("put 1 data 4294967295 65535 65536");
    }
}

fn change(random: &mut Random, words: &mut Vec<Vec<u8>>) {
    let many = words.len() as u32;
    let place = random.below(many + 1) as usize;
    let word = random.pick(&WORDS).to_vec();
    match random.below(10) {
        0 | 1 if many > 1 => words.truncate(random.between(1, many - 1) as usize),
        2 => words.push(word),
        3 => words.insert(place, word),
        4 if many > 0 => words[0].push(random.pick(b"sX\r\t")),
        5 if many > 1 => {
            words.remove(random.below(many) as usize);
        }
        6 if many > 0 => words[0] = words[0].to_ascii_uppercase(),
        _ if many > 1 => words[random.between(1, many - 1) as usize] = word,
        _ => words.push(word),
    }
}
