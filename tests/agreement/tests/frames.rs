//! The kind of a line, by both: valid frames, damaged ones, and any bytes.

use agreement::{proved, say};
use reference::frames::frame_kind;
use reference::random::SplitMix64;

/// A frame of a random kind, at times of a wrong length.
fn line(random: &mut SplitMix64) -> Vec<u8> {
    let kind = random.below(10);
    let bytes = match kind {
        1 => 11,
        2 | 7 => 3,
        3 => 5,
        4 => 1 + 4 * random.below(18),
        _ => 1,
    };
    let bytes = if random.below(8) == 0 { bytes + random.below(3) } else { bytes };
    let mut text = format!("{kind:02X}");
    for _ in 1..bytes {
        text.push_str(&format!("{:02X}", random.below(256)));
    }
    text.into_bytes()
}

#[test]
fn kinds_of_lines() {
    let mut random = SplitMix64::new(51);
    let mut seen = [0u64; 256];
    for number in 0..200_000 {
        let mut line = line(&mut random);
        match random.below(4) {
            0 => {
                let k = random.below(line.len());
                line[k] = random.below(256) as u8;
            }
            1 if random.below(4) == 0 => line.truncate(random.below(line.len() + 1)),
            2 if random.below(4) == 0 => line.make_ascii_lowercase(),
            _ => {}
        }
        let kind = frame_kind(&line);
        assert_eq!(proved::frame_kind_of(&line), kind, "line {number}: {line:?}");
        seen[kind as usize] += 1;
    }
    say(&format!("{} kinds", seen.iter().sum::<u64>()));
    for kind in [1, 2, 3, 4, 5, 6, 7, 255] {
        assert!(seen[kind] > 100, "kind {kind}");
    }
}

/// Every line of one byte and of two.
#[test]
fn short_lines() {
    assert_eq!(proved::frame_kind_of(&[]), frame_kind(&[]));
    for a in 0..=255 {
        assert_eq!(proved::frame_kind_of(&[a]), frame_kind(&[a]));
        for b in 0..=255 {
            assert_eq!(proved::frame_kind_of(&[a, b]), frame_kind(&[a, b]));
        }
    }
}
