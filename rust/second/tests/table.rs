//! The rules of the table (document 01, "Words"), and the three kinds of words
//! that it does not have (document 02, No. 13).

use second::bits::bits_of;
use second::words::{
    flip, has_five_alike, in_group_20, in_group_250, look_up, number, of_bits, table, valid, word,
    wrong, Kind, ENTRIES, KINDS,
};

#[test]
fn rises() {
    assert_eq!(table().len(), ENTRIES);
    assert!(table().windows(2).all(|two| two[0] < two[1]));
    assert!(table().iter().all(|&word| word < 2048));
}

#[test]
fn flips() {
    for i in 0..1024 {
        assert_eq!(flip(word(i)), word(1023 - i));
    }
}

#[test]
fn barred_groups() {
    let count = |test: fn(u16) -> bool| (0..2048).filter(|&word| test(word)).count();
    assert_eq!(count(has_five_alike), 248);
    assert_eq!(count(in_group_250), 250);
    assert_eq!(count(in_group_20), 20);
    for word in 0..2048 {
        assert!(!(in_group_250(word) && in_group_20(word)));
        assert!(!(valid(word) && (in_group_250(word) || in_group_20(word))));
        assert_eq!(in_group_250(word), in_group_250(flip(word)));
        assert_eq!(in_group_20(word), in_group_20(flip(word)));
    }
}

#[test]
fn lookup() {
    for i in 0..1024 {
        assert_eq!(number(word(i)), Some(i));
    }
    assert_eq!((0..2048).filter(|&word| valid(word)).count(), 1024);
    for word in 0..2048 {
        assert_eq!(valid(word), number(word).is_some());
        assert_eq!(of_bits(&bits_of(word.into(), 11)), word);
    }
}

/// Each word has a number or is of one kind, and the flip of a word is of the
/// same kind.
#[test]
fn kinds() {
    let count = |kind: Kind| (0..2048).filter(|&word| look_up(word) == Err(kind)).count();
    assert_eq!(KINDS.map(count), [250, 20, 754]);
    assert_eq!(
        (0..2048).filter(|&word| look_up(word).is_ok()).count(),
        1024
    );
    for word in 0..2048 {
        assert_eq!(look_up(word).ok(), number(word));
        assert_eq!(look_up(word).err(), wrong(word));
        assert_eq!(look_up(word) == Err(Kind::Group250), in_group_250(word));
        assert_eq!(look_up(word) == Err(Kind::Group20), in_group_20(word));
        assert_eq!(look_up(flip(word)).err(), look_up(word).err());
    }
}

/// The groups by another way: the 250 but two begin or end with five bits alike,
/// and the 20 repeat themselves after two, three or four bits and are not all
/// alike.
#[test]
fn groups_by_their_bits() {
    let alike = |bits: &[u8]| bits.iter().all(|bit| bit == &bits[0]);
    for word in 0..2048 {
        let bits = bits_of(word.into(), 11);
        let flipped_ends = alike(&bits[1..10]) && bits[0] == bits[10] && bits[0] != bits[1];
        assert_eq!(
            look_up(word) == Err(Kind::Group250),
            alike(&bits[..5]) || alike(&bits[6..]) || flipped_ends
        );
        let repeats = (2..=4).any(|period| bits[period..] == bits[..11 - period]);
        assert_eq!(
            look_up(word) == Err(Kind::Group20),
            repeats && !alike(&bits)
        );
    }
}

/// What has more than eleven bits is no word, and in no group.
#[test]
fn more_than_eleven_bits() {
    for word in 2048..=u16::MAX {
        assert_eq!(look_up(word), Err(Kind::Other));
    }
}

/// Document 000, 2.3.2, counts the words that stay valid when shifted by one
/// bit with some bit filled in: 316 and 324. The table gives both counts, but
/// 324 for the shift to the left, where 000 prints 316.
#[test]
fn shifted_words() {
    let left = |w: u16| valid(w << 1 & 2047) || valid(w << 1 & 2047 | 1);
    let right = |w: u16| valid(w >> 1) || valid(w >> 1 | 1024);
    let count = |test: &dyn Fn(u16) -> bool| table().iter().filter(|&&w| test(w)).count();
    assert_eq!(count(&left), 324);
    assert_eq!(count(&right), 316);
}
