//! Findings about the table.

use crate::answer;
use second::words::{
    flip, has_five_alike, in_group_20, in_group_250, number, table, valid, word, ENTRIES,
};

pub fn lines() -> Vec<String> {
    let rising = table().windows(2).all(|two| two[0] < two[1]);
    let flips = (0..1024)
        .filter(|&i| flip(word(i)) == word(1023 - i))
        .count();
    let both = count(|w| in_group_250(w) && in_group_20(w));
    let barred_entries = count(|w| valid(w) && (in_group_250(w) || in_group_20(w)));
    let neither = count(|w| !valid(w) && !in_group_250(w) && !in_group_20(w));
    let left = count(|w| valid(w) && (valid(w << 1 & 2047) || valid(w << 1 & 2047 | 1)));
    let right = count(|w| valid(w) && (valid(w >> 1) || valid(w >> 1 | 1024)));
    let whole = table().len() == ENTRIES && rising && flips == ENTRIES && barred_entries == 0;
    vec![
        format!("entries: {}", table().len()),
        format!("rising: {}", answer(rising)),
        format!("entries i whose flip is entry 1023-i: {flips}"),
        format!(
            "words that begin or end with 00000 or 11111: {}",
            count(has_five_alike)
        ),
        format!("words of the group of 250: {}", count(in_group_250)),
        format!("words of the group of 20: {}", count(in_group_20)),
        format!("words in both groups: {both}; barred words in the table: {barred_entries}"),
        format!("words neither in the table nor barred: {neither}"),
        format!("no entry damaged: {}", answer(whole)),
        format!(
            "01111111101, which 000 bars, is entry {}; 01111111110 is none: {}",
            number(0b01111111101).map_or(String::from("none"), |i| i.to_string()),
            answer(number(0b01111111110).is_none())
        ),
        format!(
            "entries that stay entries with one bit shifted out on the left: {left} (000 prints 316); on the right: {right} (000 prints 324)"
        ),
    ]
}

fn count(test: impl Fn(u16) -> bool) -> usize {
    (0..2048).filter(|&word| test(word)).count()
}
