//! Lines that are no form, or nearly one.

use crate::random::Random;

/// A form of exactly `length` bytes; its credentials do not rise, so it is refused as out of range, or as too long.
pub fn long_form(length: usize) -> String {
    let frame = "(node 1 host (has) (needs))".len();
    // one credential of two digits makes an odd rest even
    let odd = if (length - frame) % 2 == 1 { " 10" } else { "" };
    let zeros = " 0".repeat((length - frame - odd.len()) / 2);
    format!("(node 1 host (has{zeros}{odd}) (needs))")
}

/// The line with one fault; none makes a newline.
pub fn damaged(random: &mut Random, line: &str) -> Vec<u8> {
    let mut bytes = line.as_bytes().to_vec();
    let place = random.index(bytes.len());
    match random.below(15) {
        0 => bytes[place] = random.pick(b" ()0123456789abcdefghijklmnopqrstuvwxyz-+.,\t"),
        1 => drop(bytes.remove(place)),
        2 => bytes.insert(place, bytes[place]),
        3 => bytes.insert(random.index(bytes.len() + 1), b' '),
        4 => bytes = line.to_uppercase().into_bytes(),
        5 => bytes = in_first_number(line, "0"),
        6 => bytes = in_first_number(line, "1234567890"),
        7 => bytes.truncate(place),
        8 => bytes.push(b'\r'),
        9 => bytes[place] = random.pick(&[0, 9, 11, 13, 127]),
        10 => bytes[place] = 128 + random.below(128) as u8,
        11 => bytes = long_form(random.pick(&[399, 400, 401, 5000])).into_bytes(),
        12 => bytes = format!("{} 1)", &line[..line.len() - 1]).into_bytes(),
        13 => bytes = format!("{} default)", &line[..line.len() - 1]).into_bytes(),
        _ => bytes.resize(random.pick(&[399, 400, 401, 5000]), b' '),
    }
    bytes
}

/// The line with `digits` before its first number: a leading zero, or too many digits.
fn in_first_number(line: &str, digits: &str) -> Vec<u8> {
    let place = line.find(|character: char| character.is_ascii_digit()).unwrap_or(0);
    format!("{}{digits}{}", &line[..place], &line[place..]).into_bytes()
}
