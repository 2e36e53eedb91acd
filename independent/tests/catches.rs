//! What CRC5 alone catches, held against the reader and against the polynomials.

use independent::air::AIR_BITS;
use independent::catches::{
    bits_not_seen, bits_that_cancel, difference, flip_as_it_goes_in, header_bit, is_seen, one_in,
    order, outcomes_not_seen, pairs, pairs_not_seen, payload_pairs_not_seen, sees_odd,
    write_catches,
};
use independent::crc::{crc13, Crc, CRC13, CRC5};
use independent::header::{read_header, Field, Header, GIVEN};
use independent::rng::Rng;
use independent::rules::{Edition, Rules, EDITIONS};
use independent::sample::seal;

/// A header by chance whose CRC5 is right.
fn right_header(rng: &mut Rng, edition: Edition) -> Header {
    let mut header = Header::default();
    header.values[..GIVEN].fill_with(|| rng.below(65_536) as u16);
    // A value is cut to its width.
    let mut header = Header::from_bits(header.to_bits());
    let payload = rng.bytes(8);
    seal(edition, &mut header, &payload);
    header
}

/// Whether the reader refuses a header for its CRC5.
fn refused_with_4(edition: Edition, air: &[u8; AIR_BITS]) -> bool {
    let rules = Rules { edition, limit: 0 };
    read_header(rules, None, air).is_err_and(|refusal| refusal.number == 4)
}

/// A change of any bits, by chance.
fn any_change(rng: &mut Rng) -> u128 {
    u128::from(rng.next_u64()) << 6 | u128::from(rng.below(64))
}

/// Header bits 32 to 35.
fn lost() -> u128 {
    (32..36).map(header_bit).sum()
}

#[test]
fn a_change_before_coding_is_seen_exactly_where_the_reader_gives_4() {
    let mut rng = Rng::new(31);
    for edition in EDITIONS {
        let mut changes: Vec<u128> = (0..70).map(header_bit).collect();
        changes.extend(pairs().map(|(low, high)| header_bit(low) | header_bit(high)));
        changes.extend((0..3_000).map(|_| any_change(&mut rng)));
        for change in changes {
            let header = right_header(&mut rng, edition);
            assert!(!refused_with_4(edition, &header.to_air()));
            let changed = Header::from_bits(header.to_bits() ^ change);
            let seen = refused_with_4(edition, &changed.to_air());
            assert_eq!(is_seen(edition, change), seen, "{change:x}");
        }
    }
}

#[test]
fn which_header_was_changed_does_not_matter() {
    let mut rng = Rng::new(32);
    for edition in EDITIONS {
        for _ in 0..3_000 {
            let (header, change) = (right_header(&mut rng, edition), any_change(&mut rng));
            let changed = Header::from_bits(header.to_bits() ^ change);
            let differs = changed.crc5(edition) ^ changed[Field::Crc5];
            assert_eq!(difference(edition, change), differs);
        }
    }
}

#[test]
fn single_bits_are_seen_but_for_32_to_35_under_the_flown_edition() {
    assert_eq!(bits_not_seen(Edition::Flown), [32, 33, 34, 35]);
    assert_eq!(bits_not_seen(Edition::Corrected), []);
}

#[test]
fn any_odd_number_of_changed_bits_is_seen() {
    let mut rng = Rng::new(33);
    for (edition, left_out) in [(Edition::Flown, lost()), (Edition::Corrected, 0)] {
        // The factor x + 1: every bit that counts changes an odd number of bits of the difference.
        for n in (0..70).filter(|&n| header_bit(n) & left_out == 0) {
            assert_eq!(difference(edition, header_bit(n)).count_ones() % 2, 1);
        }
        for (low, high) in pairs() {
            for third in high + 1..70 {
                let change = header_bit(low) | header_bit(high) | header_bit(third);
                assert!(change & left_out != 0 || is_seen(edition, change));
            }
        }
        for _ in 0..20_000 {
            let change = any_change(&mut rng) & !left_out;
            if change.count_ones() % 2 == 1 {
                assert!(is_seen(edition, change));
            }
        }
    }
    // Under the flown edition an odd change that touches them need not be seen.
    assert!(!is_seen(
        Edition::Flown,
        header_bit(0) | header_bit(17) | header_bit(33)
    ));
}

#[test]
fn changes_to_the_four_lost_bits_alone() {
    let mut rng = Rng::new(34);
    for four in 1..16_u128 {
        let change = four << (70 - 36);
        assert!(!is_seen(Edition::Flown, change));
        assert!(is_seen(Edition::Corrected, change));
        // Under the flown edition they change nothing about another change either.
        for _ in 0..200 {
            let other = any_change(&mut rng);
            let both = difference(Edition::Flown, other ^ change);
            assert_eq!(both, difference(Edition::Flown, other));
        }
    }
}

/// The power of x that a header bit stands for. Bits 0 to 64 are in nine bytes that go in from the last to the first; x^5
/// times x for each bit that goes in later. Bits 65 to 69 are the checksum's own.
fn power(n: usize) -> usize {
    if n < 65 {
        let place = 8 * (8 - n / 8) + n % 8;
        5 + (71 - place)
    } else {
        69 - n
    }
}

#[test]
fn pairs_are_not_seen_where_their_powers_of_x_are_the_same() {
    // 0x35 is (x + 1)(x^4 + x + 1), and x has the order 15.
    assert_eq!(order(CRC5), 15);
    assert_eq!(pairs().count(), 2_415);
    let is_lost = |n: usize| (32..36).contains(&n);
    for edition in EDITIONS {
        let not_seen = pairs_not_seen(edition);
        let sets = bits_that_cancel(edition);
        for (low, high) in pairs() {
            let expected = if edition == Edition::Flown && (is_lost(low) || is_lost(high)) {
                is_lost(low) && is_lost(high)
            } else {
                power(low) % 15 == power(high) % 15
            };
            assert_eq!(not_seen.contains(&(low, high)), expected, "{low} {high}");
            let together = sets
                .iter()
                .any(|set| set.contains(&low) && set.contains(&high));
            assert_eq!(together, expected);
        }
        assert_eq!(sets.iter().map(Vec::len).sum::<usize>(), 70);
    }
    assert_eq!(EDITIONS.map(|e| pairs_not_seen(e).len()), [125, 131]);
}

#[test]
fn the_smallest_even_change_that_is_not_seen_has_two_bits() {
    for edition in EDITIONS {
        assert_eq!(pairs_not_seen(edition)[0], (0, 17));
        // neighbours on both sides of a byte's edge
        for low in [7, 15, 23, 39, 47, 55, 63] {
            assert!(!is_seen(edition, header_bit(low) | header_bit(low + 1)));
        }
    }
    let edge = header_bit(31) | header_bit(32);
    assert!(is_seen(Edition::Flown, edge) && !is_seen(Edition::Corrected, edge));
}

#[test]
fn wrong_outcomes_of_one_word() {
    let table = [
        [0, 0],
        [1, 1],
        [0, 0],
        [1, 1],
        [1, 1],
        [0, 0],
        [7, 1],
        [1, 0],
        [0, 0],
        [1, 1],
        [0, 0],
        [1, 1],
        [1, 1],
        [0, 0],
    ];
    let mut rng = Rng::new(35);
    for (word, row) in table.into_iter().enumerate() {
        assert_eq!(EDITIONS.map(|e| outcomes_not_seen(e, word)), row);
        // whatever the word and the rest of the header were
        let after = 70 - 5 * (word + 1);
        for (edition, count) in EDITIONS.into_iter().zip(row) {
            for _ in 0..20 {
                let header = right_header(&mut rng, edition);
                let outcomes = (1..32).map(|data: u128| {
                    let changed = Header::from_bits(header.to_bits() ^ data << after);
                    usize::from(!refused_with_4(edition, &changed.to_air()))
                });
                assert_eq!(outcomes.sum::<usize>(), count);
            }
        }
    }
}

#[test]
fn of_all_changes_one_in_32_is_not_seen() {
    for edition in EDITIONS {
        assert_eq!(one_in(edition), 32);
        // All changes of the check bits and of seven more bits are 32 times those that are not seen.
        let bits = [0, 9, 31, 33, 40, 51, 64, 65, 66, 67, 68, 69];
        let changes = (0..1_u32 << bits.len()).map(|chosen| {
            let of = |(k, &n): (usize, &usize)| u128::from(chosen >> k & 1) * header_bit(n);
            bits.iter().enumerate().map(of).sum::<u128>()
        });
        let not_seen = changes.filter(|&change| !is_seen(edition, change)).count();
        assert_eq!(32 * not_seen, 1 << bits.len());
    }
}

#[test]
fn crc13_does_not_see_two_bits_that_go_in_178_apart() {
    assert_eq!(order(CRC13), 178);
    let mut rng = Rng::new(36);
    for length in [23, 24, 62, 69, 300, 1_023] {
        let payload = rng.bytes(length);
        let places = 8 * length - 178;
        for place in (0..places).step_by(1 + places / 300).chain([places - 1]) {
            let mut other = payload.clone();
            flip_as_it_goes_in(&mut other, place);
            assert_ne!(crc13(&other), crc13(&payload));
            flip_as_it_goes_in(&mut other, place + 178);
            assert_eq!(crc13(&other), crc13(&payload));
            assert_ne!(other, payload);
        }
    }
}

#[test]
fn crc13_sees_two_bits_that_are_not_a_multiple_of_178_apart() {
    // every pair of a payload, then of one that has none of those
    for (length, not_seen) in [(46, 368 - 178 + 368 - 356), (23, 6), (22, 0)] {
        let payload = Rng::new(37).bytes(length);
        let bits = 8 * length;
        let alone: Vec<u16> = (0..bits)
            .map(|place| {
                let mut other = payload.clone();
                flip_as_it_goes_in(&mut other, place);
                crc13(&other) ^ crc13(&payload)
            })
            .collect();
        let mut count = 0;
        for high in 0..bits {
            for low in 0..high {
                let seen = alone[low] != alone[high];
                assert_eq!(seen, (high - low) % 178 != 0);
                count += usize::from(!seen);
            }
        }
        assert_eq!(count, not_seen);
        let pairs = bits * (bits - 1) / 2;
        assert_eq!(payload_pairs_not_seen(length), (not_seen, pairs));
    }
    assert_eq!(payload_pairs_not_seen(0), (0, 0));
}

#[test]
fn places_go_from_the_last_byte_to_the_first_highest_bit_first() {
    for (place, expected) in [
        (0, [0, 0, 0x80]),
        (7, [0, 0, 0x01]),
        (8, [0, 0x80, 0]),
        (23, [0x01, 0, 0]),
    ] {
        let mut payload = [0; 3];
        flip_as_it_goes_in(&mut payload, place);
        assert_eq!(payload, expected);
    }
}

#[test]
fn a_checksum_sees_odd_changes_where_its_polynomial_has_the_factor_x_plus_1() {
    let ccsds = Crc {
        width: 16,
        polynomial: 0x1021,
        start: 0xFFFF,
    };
    // x^16 + x^12 + x^3 + x + 1 has an odd number of terms
    let without = Crc {
        polynomial: 0x100B,
        ..ccsds
    };
    assert!([CRC5, CRC13, ccsds].into_iter().all(sees_odd));
    assert!(!sees_odd(without));
    let mut rng = Rng::new(38);
    for crc in [CRC5, CRC13, ccsds, without] {
        let payload = rng.bytes(40);
        let mut parities = [[0; 2]; 2];
        for _ in 0..20_000 {
            let change = rng.bytes(40);
            let ones: u32 = change.iter().map(|byte| byte.count_ones()).sum();
            let other: Vec<u8> = payload.iter().zip(change).map(|(a, b)| a ^ b).collect();
            let differs = (crc.of(&other) ^ crc.of(&payload)).count_ones();
            parities[ones as usize % 2][differs as usize % 2] += 1;
        }
        // An odd change has a difference of odd weight, which is not 0.
        assert_eq!(parities[1][0] == 0, sees_odd(crc));
        assert_eq!(parities[0][1] == 0, sees_odd(crc));
    }
}

#[test]
fn the_whole_text() {
    let mut text = Vec::new();
    write_catches(&mut text).unwrap();
    let expected = "\
crc5 flown
every odd change seen, of the bits but 32 to 35: yes
bits not seen alone, 4 of 70: 32 33 34 35
pairs not seen: 125 of 2415
smallest even change not seen: 2 bits, first 0 17
neighbours not seen: 7-8 15-16 23-24 32-33 33-34 34-35 39-40 47-48 55-56 63-64
changes of bits 32 to 35 alone not seen: 15 of 15
of all changes not seen: 1 in 32
bits of which no two are seen together
0 17 51
1 18 52
2 19 36 53
3 20 37 54
4 21 38 55 56
5 22 39 40 57
6 23 24 41 58
7 8 25 42 59
9 26 43 60 65
10 27 44 61 66
11 28 45 62 67
12 29 46 63 64 68
13 30 47 48 69
14 31 49
15 16 50
32 33 34 35
crc5 corrected
every odd change seen: yes
bits not seen alone, 0 of 70: none
pairs not seen: 131 of 2415
smallest even change not seen: 2 bits, first 0 17
neighbours not seen: 7-8 15-16 23-24 31-32 39-40 47-48 55-56 63-64
changes of bits 32 to 35 alone not seen: 0 of 15
of all changes not seen: 1 in 32
bits of which no two are seen together
0 17 34 51
1 18 35 52
2 19 36 53
3 20 37 54
4 21 38 55 56
5 22 39 40 57
6 23 24 41 58
7 8 25 42 59
9 26 43 60 65
10 27 44 61 66
11 28 45 62 67
12 29 46 63 64 68
13 30 47 48 69
14 31 32 49
15 16 33 50
wrong outcomes of one word that crc5 does not see, of 31
word bits flown corrected
0 0-4 0 0
1 5-9 1 1
2 10-14 0 0
3 15-19 1 1
4 20-24 1 1
5 25-29 0 0
6 30-34 7 1
7 35-39 1 0
8 40-44 0 0
9 45-49 1 1
10 50-54 0 0
11 55-59 1 1
12 60-64 1 1
13 65-69 0 0
crc13
every odd change seen: yes
two bits not seen where they go in 178 apart
pairs not seen in a payload of 62: 458 of 122760
pairs not seen in a payload of 69: 588 of 152076
pairs not seen in a payload of 1023: 184050 of 33484836
";
    assert_eq!(String::from_utf8(text).unwrap(), expected);
}
