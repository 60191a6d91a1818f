//! The worst header list beside every list of few bytes, beside a greedy one, and refused.

use crate::cases::Cases;
use shared::check;
use shared::library::{worst_header, HEADER_MAX, STRINGS_MAX};
use shared::work;

/// Memory before and behind the places, and what it holds.
const BESIDE: usize = 4;
const FILL: u32 = 0xa5a5_a5a5;

/// What a check of these figures is about.
fn name(header_len: usize, count: usize, least: usize, of: &str) -> String {
    format!("worst header of {header_len} bytes, {count} strings, least {least}: {of}")
}

/// The blocks that the archive gives, or None for 12. Whatever list it gives has these figures and these blocks.
fn given(header_len: usize, count: usize, least: usize) -> Option<u64> {
    let holds = |of: &str, condition| check::holds(|| name(header_len, count, least, of), condition);
    let mut memory = [FILL; BESIDE + STRINGS_MAX + BESIDE];
    let places: &mut [u32; STRINGS_MAX] = (&mut memory[BESIDE..][..STRINGS_MAX]).try_into().expect("there are 126 places");
    let (number, blocks) = worst_header(header_len, count, least, places);
    let places = *places;
    holds("memory before the places is written", memory[..BESIDE].iter().all(|&len| len == FILL));
    holds("memory behind the places is written", memory[BESIDE + STRINGS_MAX..].iter().all(|&len| len == FILL));
    if number != 0 {
        holds(&format!("refused with {number}"), number == 12);
        holds("a list or blocks after 12", blocks == 0 && places.iter().all(|&len| len == 0));
        return None;
    }
    holds("planned with more strings than places", count <= STRINGS_MAX);
    let (list, past) = places.split_at(count);
    holds("a length past the count", past.iter().all(|&len| len == 0));
    holds("a length under the least", list.iter().all(|&len| len as usize >= least));
    holds("another sum", list.iter().map(|&len| len as usize).sum::<usize>() == header_len);
    holds(&format!("{blocks} blocks are not the list's"), work::strings(list) == blocks);
    Some(blocks)
}

/// The archive gives a list with these figures and so many blocks.
fn gives(header_len: usize, count: usize, least: usize, most: u64) {
    let got = given(header_len, count, least);
    check::holds(|| name(header_len, count, least, &format!("{got:?} blocks, not {most}")), got == Some(most));
}

/// The archive gives 12 exactly where it is due.
fn refuses(header_len: usize, count: usize, least: usize, due: bool) {
    let refused = given(header_len, count, least).is_none();
    check::holds(|| name(header_len, count, least, &format!("12: {refused}, not {due}")), refused == due);
}

/// The most blocks of all lists of so many lengths with that sum, none under the least: each is tried.
fn most_of_all(header_len: usize, count: usize, least: usize) -> Option<u64> {
    if count == 1 {
        return (least <= header_len).then(|| work::string(header_len));
    }
    (least..=header_len)
        .filter_map(|first| Some(work::string(first) + most_of_all(header_len - first, count - 1, least)?))
        .max()
}

/// Every sum to 60 in one to four strings.
pub fn every_list(_: &mut Cases) {
    for least in [0, 1] {
        for count in 1..=4 {
            for header_len in 0..=60 {
                match most_of_all(header_len, count, least) {
                    Some(most) => gives(header_len, count, least, most),
                    None => refuses(header_len, count, least, true),
                }
            }
        }
    }
}

/// The most blocks by spending the bytes beyond the least where the next block takes fewest.
fn greedy(header_len: usize, count: usize, least: usize) -> u64 {
    let mut lens = vec![least; count];
    let mut left = header_len - count * least;
    loop {
        let price = |len: usize| 16 * work::string(len) as usize + 1 - len;
        let cheapest = (0..count).min_by_key(|&i| price(lens[i])).expect("there is a string");
        let price = price(lens[cheapest]);
        if price > left {
            return lens.iter().map(|&len| work::string(len)).sum();
        }
        lens[cheapest] += price;
        left -= price;
    }
}

/// Rule 16.3's two figures, the edges of every figure, and random figures of every size.
pub fn greedy_lists(Cases { random, .. }: &mut Cases) {
    gives(17, 126, 0, 127);
    gives(142, 126, 1, 127);
    for count in [1, 2, 3, 125, 126] {
        for least in [0, 1] {
            // The greedy list of many bytes in many strings takes long: one is enough.
            let most = if count < 3 { HEADER_MAX - 40 } else { HEADER_MAX };
            for header_len in (count * least..300).chain(most..=HEADER_MAX) {
                gives(header_len, count, least, greedy(header_len, count, least));
            }
        }
    }
    for _ in 0..2000 {
        let bound = 2 << random.below(20);
        let header_len = random.below(bound);
        let count = 1 + random.below(STRINGS_MAX);
        let least = usize::from(header_len >= count && random.once_in(2));
        gives(header_len, count, least, greedy(header_len, count, least));
    }
}

/// Figures at, beside and far beyond every bound, all with all: 12 is given exactly where a bound is passed.
pub fn refused(Cases { random, .. }: &mut Cases) {
    let far = [1 << 32, (1 << 32) + 1, 1 << 63, (1 << 63) + 1, usize::MAX - 1, usize::MAX];
    let lens = [0, 1, 2, 125, 126, 127, HEADER_MAX - 1, HEADER_MAX, HEADER_MAX + 1, random.below(HEADER_MAX)];
    let counts = [0, 1, 2, 125, 126, 127, 128, 1 + random.below(STRINGS_MAX)];
    let leasts = [0, 1, 2, 3];
    for count in 1..=STRINGS_MAX {
        for (header_len, due) in [(count - 1, true), (count, false), (count + 1, false)] {
            refuses(header_len, count, 1, due);
            refuses(header_len, count, 0, false);
        }
    }
    for &header_len in lens.iter().chain(&far) {
        for &count in counts.iter().chain(&far) {
            for &least in leasts.iter().chain(&far) {
                let due = !(1..=STRINGS_MAX).contains(&count)
                    || least > 1
                    || header_len > HEADER_MAX
                    || (header_len as u128) < count as u128 * least as u128;
                refuses(header_len, count, least, due);
            }
        }
    }
}
