//! Headers and frames, written and read: each refusal, its order and place, and what damage does.

use independent::air::{AIR_BITS, WORDS};
use independent::call_sign::call_sign_bits;
use independent::crc::crc13;
use independent::frame::read_frame;
use independent::header::{
    largest, read_header, write_header, Field, Header, Heard, GIVEN, WIDTHS,
};
use independent::refusal::Refusal;
use independent::rng::Rng;
use independent::rules::{usual, Edition, Rules, EDITIONS};
use independent::sample::{burst, flip_pattern, flip_some, seal};

/// The rules that refuse no frame for its flips.
const WIDEST: Rules = flown(42);

/// How a flown frame is read under a limit.
const fn flown(limit: u32) -> Rules {
    let edition = Edition::Flown;
    Rules { edition, limit }
}

/// Fields in range of the flown edition, by chance.
fn given(rng: &mut Rng) -> [u16; GIVEN] {
    given_under(Edition::Flown, rng)
}

/// Fields in range, by chance.
fn given_under(edition: Edition, rng: &mut Rng) -> [u16; GIVEN] {
    let mut given = [0; GIVEN];
    for (field, value) in given.iter_mut().enumerate() {
        *value = rng.within(0..=u32::from(largest(edition, field))) as u16;
    }
    given
}

/// The header that the writer makes of these fields and this payload, for a flown frame.
fn written(given: &[u16; GIVEN], payload: &[u8]) -> [u8; AIR_BITS] {
    written_under(Edition::Flown, given, payload)
}

fn written_under(edition: Edition, given: &[u16; GIVEN], payload: &[u8]) -> [u8; AIR_BITS] {
    let mut air = [9; AIR_BITS];
    write_header(edition, given, payload, &mut air).unwrap();
    air
}

/// The header with these changes under a right CRC5 of the flown edition, on air.
fn sealed(payload: &[u8], change: impl Fn(&mut Header)) -> [u8; AIR_BITS] {
    sealed_under(Edition::Flown, payload, change)
}

fn sealed_under(edition: Edition, payload: &[u8], change: impl Fn(&mut Header)) -> [u8; AIR_BITS] {
    let mut header = Header::default();
    seal(edition, &mut header, payload);
    change(&mut header);
    header[Field::Crc5] = header.crc5(edition);
    header.to_air()
}

/// Where two headers on air differ, word by word: "bit n of the 210 is position n div 14 of word n mod 14".
fn flipped(sent: &[u8; AIR_BITS], received: &[u8; AIR_BITS]) -> [u16; WORDS] {
    let mut patterns = [0; WORDS];
    for n in (0..AIR_BITS).filter(|&n| sent[n] != received[n]) {
        patterns[n % 14] += 1 << (n / 14);
    }
    patterns
}

fn refusal<T>(number: u8, place: usize) -> Result<T, Refusal> {
    Err(Refusal { number, place })
}

#[test]
fn what_is_written_is_read_back_under_the_same_edition() {
    let mut rng = Rng::new(1);
    for edition in EDITIONS {
        for length in (0..=1_023).step_by(11) {
            let (given, payload) = (given_under(edition, &mut rng), rng.bytes(length));
            let air = written_under(edition, &given, &payload);
            let heard = read_frame(usual(edition), None, &air, &payload).unwrap();
            assert_eq!(heard.patterns, [0; WORDS]);
            assert_eq!(heard.header.values[..GIVEN], given);
            assert_eq!(usize::from(heard.header[Field::PduLength]), length);
            assert_eq!(heard.header[Field::Crc13], crc13(&payload));
            assert_eq!(heard.header[Field::Crc5], heard.header.crc5(edition));
            assert_eq!(read_header(usual(edition), None, &air), Ok(heard));
        }
    }
}

#[test]
fn up_to_three_flips_a_word_are_undone_counted_and_told() {
    let mut rng = Rng::new(2);
    for _ in 0..500 {
        let (given, payload) = (given(&mut rng), rng.bytes(20));
        let clean = written(&given, &payload);
        let mut air = clean;
        let mut flips = 0;
        for word in 0..WORDS {
            let count = rng.below(4);
            flip_some(&mut rng, &mut air, word, count);
            flips += count;
        }
        let header = read_frame(WIDEST, None, &clean, &payload).unwrap().header;
        let heard = read_frame(WIDEST, None, &air, &payload).unwrap();
        let patterns = flipped(&clean, &air);
        assert_eq!(heard, Heard { header, patterns });
        assert_eq!(heard.flips(), flips);
    }
}

#[test]
fn air_bit_14_i_plus_j_is_bit_i_of_pattern_j() {
    let clean = written(&given(&mut Rng::new(12)), &[]);
    for n in 0..AIR_BITS {
        let mut air = clean;
        air[n] ^= 1;
        let mut patterns = [0; WORDS];
        patterns[n % 14] = 1 << (n / 14);
        let heard = read_header(WIDEST, None, &air).unwrap();
        assert_eq!(heard.patterns, patterns);
        assert_eq!((heard.flips(), heard.worst()), (1, n % 14));
    }
}

#[test]
fn marked_words_in_a_header_give_their_patterns() {
    // Word 1 has the last two bits of SrcId and the first three of DstId.
    for (dst_id, word, received, pattern) in [
        (0, 0, 0x0007, 0x0007),
        (0b001_0000, 0x537, 0x0017, 0x0520),
        (0b001_0000, 0x537, 0x537, 0),
    ] {
        let mut given = [0; GIVEN];
        given[Field::DstId as usize] = dst_id;
        let mut air = written(&given, &[]);
        let mut patterns = [0; WORDS];
        patterns[1] = pattern;
        for position in 0..15 {
            let bit = &mut air[14 * position + 1];
            assert_eq!(u16::from(*bit), word >> position & 1);
            *bit = (received >> position & 1) as u8;
        }
        let heard = read_frame(WIDEST, None, &air, &[]).unwrap();
        assert_eq!(heard.patterns, patterns);
        assert_eq!(heard.flips(), pattern.count_ones());
        assert_eq!(heard.worst(), usize::from(pattern != 0));
    }
}

#[test]
fn flips_in_parity_positions_are_told_as_others_are() {
    let clean = written(&given(&mut Rng::new(13)), &[]);
    let header = read_header(WIDEST, None, &clean).unwrap().header;
    let mut air = clean;
    let mut patterns = [0; WORDS];
    // Positions 0 to 9 are parity: of words 8 and 9 nothing else, of word 3 none.
    (patterns[3], patterns[8], patterns[9]) = (0x6000, 0x0241, 0x0106);
    for (word, &pattern) in patterns.iter().enumerate() {
        flip_pattern(&mut air, word, pattern);
    }
    let heard = read_header(WIDEST, None, &air).unwrap();
    assert_eq!(heard, Heard { header, patterns });
    assert_eq!((heard.flips(), heard.worst()), (8, 8));
}

#[test]
fn three_flips_in_every_word_are_42() {
    let mut rng = Rng::new(3);
    for _ in 0..200 {
        let mut air = written(&given(&mut rng), &[]);
        for word in 0..WORDS {
            flip_some(&mut rng, &mut air, word, 3);
        }
        let heard = read_frame(WIDEST, None, &air, &[]).unwrap();
        assert_eq!(heard.patterns.map(u16::count_ones), [3; WORDS]);
        assert_eq!((heard.flips(), heard.worst()), (42, 0));
    }
}

#[test]
fn a_burst_of_42_neighbours_is_undone_wherever_it_stands() {
    let mut rng = Rng::new(4);
    let clean = written(&given(&mut rng), &[]);
    let header = read_header(WIDEST, None, &clean).unwrap().header;
    for length in 0..=42 {
        for start in 0..=AIR_BITS - length {
            let mut air = clean;
            burst(&mut air, start, length);
            let heard = read_header(WIDEST, None, &air).unwrap();
            let patterns = flipped(&clean, &air);
            assert_eq!(heard, Heard { header, patterns });
            assert_eq!(heard.flips() as usize, length);
            // Whole rounds of fourteen are a tie. So many words from this one on have one flip more, word 0 after word 13.
            let (first, more) = (start % 14, length % 14);
            let of_word_0 = more == 0 || first + more > 14;
            assert_eq!(heard.worst(), if of_word_0 { 0 } else { first });
        }
    }
}

#[test]
fn a_burst_of_43_neighbours_is_never_undone() {
    let mut rng = Rng::new(5);
    let clean = written(&given(&mut rng), &[]);
    let header = read_header(WIDEST, None, &clean).unwrap().header;
    for start in 0..=AIR_BITS - 43 {
        let mut air = clean;
        burst(&mut air, start, 43);
        assert_ne!(
            read_header(WIDEST, None, &air).map(|heard| heard.header),
            Ok(header)
        );
    }
    // The first of them gives word 0 the pattern 0x000F, which is beyond repair.
    let mut air = clean;
    burst(&mut air, 0, 43);
    assert_eq!(read_header(WIDEST, None, &air), refusal(3, 0));
}

#[test]
fn refusal_1_is_another_length() {
    for length in (0..AIR_BITS).chain(AIR_BITS + 1..300) {
        assert_eq!(
            read_header(WIDEST, None, &vec![0; length]),
            refusal(1, length)
        );
        assert_eq!(
            read_frame(WIDEST, None, &vec![7; length], &[1]),
            refusal(1, length)
        );
    }
}

#[test]
fn refusal_2_is_the_lowest_element_above_1() {
    for index in 0..AIR_BITS {
        for value in [2, 3, 128, 255] {
            let mut air = [1; AIR_BITS];
            air[index] = value;
            air[AIR_BITS - 1] = value;
            assert_eq!(read_header(WIDEST, None, &air), refusal(2, index));
        }
    }
    // before 3
    let mut air = [0; AIR_BITS];
    flip_pattern(&mut air, 0, 0x000F);
    assert_eq!(read_header(WIDEST, None, &air), refusal(3, 0));
    air[AIR_BITS - 1] = 2;
    assert_eq!(read_header(WIDEST, None, &air), refusal(2, AIR_BITS - 1));
}

#[test]
fn refusal_3_is_the_lowest_word_beyond_repair() {
    for word in 0..WORDS {
        let mut air = sealed(&[], |_| {});
        flip_pattern(&mut air, word, 0x000F);
        assert_eq!(read_header(WIDEST, None, &air), refusal(3, word));
        flip_pattern(&mut air, WORDS - 1, if word < 13 { 0x000F } else { 0 });
        assert_eq!(read_header(WIDEST, None, &air), refusal(3, word));
    }
}

#[test]
fn refusal_4_gives_the_crc5_worked_out() {
    assert_eq!(read_header(WIDEST, None, &[0; AIR_BITS]), refusal(4, 6));
    for wrong in 1..32 {
        let mut header = Header::default();
        header[Field::SrcId] = 100;
        header[Field::AiTypeSrc] = 9;
        let right = header.crc5(Edition::Flown);
        header[Field::Crc5] = right ^ wrong;
        assert_eq!(
            read_header(WIDEST, None, &header.to_air()),
            refusal(4, right.into())
        );
    }
}

/// A header with so many flips in all, at most three in a word, in words by chance.
fn with_flips(rng: &mut Rng, clean: &[u8; AIR_BITS], total: u32) -> [u8; AIR_BITS] {
    let mut counts = [0; WORDS];
    for _ in 0..total {
        let open: Vec<usize> = (0..WORDS).filter(|&word| counts[word] < 3).collect();
        counts[open[rng.below(open.len() as u32) as usize]] += 1;
    }
    let mut air = *clean;
    for (word, count) in counts.into_iter().enumerate() {
        flip_some(rng, &mut air, word, count);
    }
    air
}

#[test]
fn refusal_21_is_a_total_of_flips_above_the_limit() {
    let mut rng = Rng::new(14);
    let clean = written(&given(&mut rng), &[]);
    let header = read_header(WIDEST, None, &clean).unwrap().header;
    for limit in 0..=42 {
        for total in 0..=42 {
            let air = with_flips(&mut rng, &clean, total);
            let heard = if total <= limit {
                let patterns = flipped(&clean, &air);
                Ok(Heard { header, patterns })
            } else {
                refusal(21, total as usize)
            };
            assert_eq!(read_header(flown(limit), None, &air), heard);
            assert_eq!(read_frame(flown(limit), None, &air, &[]), heard);
        }
    }
}

#[test]
fn a_caller_that_names_no_limit_has_28() {
    let mut rng = Rng::new(15);
    let clean = written(&given(&mut rng), &[]);
    for total in 0..=42 {
        let air = with_flips(&mut rng, &clean, total);
        let answer = read_frame(usual(Edition::Flown), None, &air, &[]).map(|heard| heard.flips());
        let expected = if total <= 28 {
            Ok(total)
        } else {
            refusal(21, total as usize)
        };
        assert_eq!(answer, expected);
        assert_eq!(
            answer,
            read_frame(flown(28), None, &air, &[]).map(|heard| heard.flips())
        );
    }
}

#[test]
fn a_burst_of_up_to_the_limit_is_undone_and_a_longer_one_is_not() {
    let clean = written(&given(&mut Rng::new(16)), &[]);
    let header = read_header(WIDEST, None, &clean).unwrap().header;
    for limit in [0, 1, 14, 28, 41, 42] {
        for length in 0..=42 {
            for start in 0..=AIR_BITS - length {
                let mut air = clean;
                burst(&mut air, start, length);
                let answer = read_header(flown(limit), None, &air).map(|heard| heard.header);
                let undone = length <= limit as usize;
                assert_eq!(
                    answer,
                    if undone {
                        Ok(header)
                    } else {
                        refusal(21, length)
                    }
                );
            }
        }
    }
}

#[test]
fn flips_in_parity_positions_count_against_the_limit() {
    let clean = written(&given(&mut Rng::new(17)), &[]);
    for pattern in [0x0001, 0x0201, 0x0007, 0x4000, 0x7000] {
        let mut air = clean;
        flip_pattern(&mut air, 6, pattern);
        let ones = pattern.count_ones();
        let limit = ones - 1;
        assert_eq!(
            read_header(flown(limit), None, &air),
            refusal(21, ones as usize)
        );
        assert!(read_header(flown(ones), None, &air).is_ok());
    }
}

#[test]
fn refusal_21_comes_after_3_and_before_4() {
    let mut air = sealed(&[], |header| {
        header[Field::SrcId] = 100;
        header[Field::AiTypeSrc] = 9;
    });
    flip_pattern(&mut air, 0, 0x0007);
    flip_pattern(&mut air, 13, 0x0001);
    let limited = |limit: u32, air: &[u8]| read_frame(flown(limit), None, air, &[1]);
    // 5 under a right CRC5, 4 under a wrong one: 21 comes before both of them.
    assert_eq!(limited(4, &air), refusal(5, 100));
    assert_eq!(limited(3, &air), refusal(21, 4));
    // word 13 as another valid word: CRC5 is another one
    flip_pattern(&mut air, 13, 0x0537);
    assert!(matches!(limited(4, &air), Err(Refusal { number: 4, .. })));
    assert_eq!(limited(3, &air), refusal(21, 4));
    // A word beyond repair, the last of all, comes before 21; an element above 1 and a length before both.
    flip_pattern(&mut air, 12, 0x000F);
    assert_eq!(limited(0, &air), refusal(3, 12));
    air[209] = 2;
    assert_eq!(limited(0, &air), refusal(2, 209));
    assert_eq!(limited(0, &air[1..]), refusal(1, 209));
}

#[test]
fn refusal_20_is_a_limit_above_42_and_comes_before_everything() {
    let good = sealed(&[], |_| {});
    let above = [2; AIR_BITS];
    let mut beyond = good;
    flip_pattern(&mut beyond, 0, 0x000F);
    let (zeros, short) = ([0; AIR_BITS], [0; 209]);
    let slices: [&[u8]; 6] = [&good, &above, &beyond, &zeros, &short, &[]];
    for limit in [43, 44, 84, 255, 256, 298, 65_535, 65_536 + 42, u32::MAX] {
        for slice in slices {
            assert_eq!(
                read_header(flown(limit), None, slice),
                refusal(20, limit as usize)
            );
            assert_eq!(
                read_frame(flown(limit), None, slice, &[1]),
                refusal(20, limit as usize)
            );
        }
    }
    for limit in 0..=42 {
        assert!(read_frame(flown(limit), None, &good, &[]).is_ok());
        assert_eq!(read_header(flown(limit), None, &short), refusal(1, 209));
    }
}

#[test]
fn crc5_is_judged_after_repair() {
    let mut air = [0; AIR_BITS];
    for word in 0..WORDS {
        flip_pattern(&mut air, word, 0x7000);
    }
    assert_eq!(read_header(WIDEST, None, &air), refusal(4, 6));
}

#[test]
fn refusals_5_and_6_are_the_values_out_of_range() {
    for src_id in 0..128 {
        for ai_type_src in 0..16 {
            let air = sealed(&[], |header| {
                header[Field::SrcId] = src_id;
                header[Field::AiTypeSrc] = ai_type_src;
            });
            let number = match read_header(WIDEST, None, &air) {
                Ok(heard) => {
                    assert_eq!(heard.header[Field::SrcId], src_id);
                    0
                }
                Err(refusal) => {
                    let value = if refusal.number == 5 {
                        src_id
                    } else {
                        ai_type_src
                    };
                    assert_eq!(refusal.place, usize::from(value));
                    refusal.number
                }
            };
            let expected = if src_id > 7 {
                5
            } else if ai_type_src > 3 {
                6
            } else {
                0
            };
            assert_eq!(number, expected);
        }
    }
}

#[test]
fn other_fields_are_carried_without_limits() {
    let air = sealed(&[], |header| {
        for (value, width) in header.values[..GIVEN].iter_mut().zip(WIDTHS) {
            *value = (1 << width) - 1;
        }
        header[Field::SrcId] = 7;
        header[Field::AiTypeSrc] = 3;
    });
    let heard = read_header(WIDEST, None, &air).unwrap();
    assert_eq!(heard.header[Field::AiTypeDst], 15);
    assert_eq!(heard.header[Field::DstId], 127);
}

#[test]
fn refusal_7_gives_pdu_length() {
    let payload = [5; 2_100];
    for pdu_length in [0, 1, 62, 1_023] {
        // CRC13 is wrong too, and comes later.
        let air = sealed(&[], |header| {
            header[Field::PduLength] = pdu_length;
            header[Field::Crc13] ^= 1;
        });
        for length in 0..2_100 {
            if length != usize::from(pdu_length) {
                let answer = read_frame(WIDEST, None, &air, &payload[..length]);
                assert_eq!(answer, refusal(7, pdu_length.into()));
            }
        }
    }
}

#[test]
fn refusal_7_comes_after_6() {
    let air = sealed(&[], |header| header[Field::AiTypeSrc] = 4);
    assert_eq!(read_frame(WIDEST, None, &air, &[1]), refusal(6, 4));
}

#[test]
fn refusal_8_gives_the_crc13_worked_out() {
    let mut rng = Rng::new(8);
    for length in [0, 1, 2, 62, 1_023] {
        let payload = rng.bytes(length);
        let right = crc13(&payload);
        for bit in 0..13 {
            let air = sealed(&payload, |header| header[Field::Crc13] ^= 1 << bit);
            assert_eq!(
                read_frame(WIDEST, None, &air, &payload),
                refusal(8, right.into())
            );
        }
    }
}

#[test]
fn writer_refuses_in_order_and_leaves_the_output_as_it_was() {
    let mut good = [0; GIVEN];
    good[Field::SrcId as usize] = 7;
    let mut bad = good;
    bad[Field::SrcId as usize] = 8;
    let (short, long) = ([0; 1_023], [0; 1_024]);
    let answer = |given: &[u16; GIVEN], payload: &[u8], room: usize| {
        let mut out = vec![7; room];
        let answer = write_header(Edition::Flown, given, payload, &mut out);
        let untouched = if answer.is_ok() { AIR_BITS } else { 0 };
        assert!(out[untouched..].iter().all(|&byte| byte == 7));
        answer
    };
    for room in 0..AIR_BITS {
        assert_eq!(answer(&bad, &long, room), refusal(13, room));
    }
    assert_eq!(answer(&bad, &long, 210), refusal(14, 0));
    assert_eq!(answer(&good, &long, 210), refusal(15, 1_024));
    for room in AIR_BITS..230 {
        assert_eq!(answer(&good, &short, room), Ok(()));
    }
}

#[test]
fn refusal_14_is_the_lowest_field_out_of_range() {
    for (edition, largest_src_id) in [(Edition::Flown, 7), (Edition::Corrected, 127)] {
        let limits = [largest_src_id, 127, 15, 15, 15, 3, 15, 3, 1, 1, 1, 1, 1, 1];
        for field in 0..GIVEN {
            let mut given = [0; GIVEN];
            let mut out = [0; AIR_BITS];
            let mut answer = |given: &[u16; GIVEN]| write_header(edition, given, &[], &mut out);
            given[field] = limits[field];
            assert_eq!(answer(&given), Ok(()));
            for over in [limits[field] + 1, u16::MAX] {
                given[field] = over;
                assert_eq!(answer(&given), refusal(14, field));
                given[GIVEN - 1] = 2;
                assert_eq!(answer(&given), refusal(14, field));
                given[GIVEN - 1] = 0;
            }
        }
    }
}

/// How a corrected frame is read, whatever its flips.
const CORRECTED: Rules = Rules {
    edition: Edition::Corrected,
    limit: 42,
};

#[test]
fn under_the_corrected_edition_all_128_sources_are_allowed() {
    for src_id in 0..128 {
        for ai_type_src in 0..16 {
            let air = sealed_under(Edition::Corrected, &[], |header| {
                header[Field::SrcId] = src_id;
                header[Field::AiTypeSrc] = ai_type_src;
                header[Field::AiTypeDst] = src_id % 16;
            });
            let answer = read_frame(CORRECTED, None, &air, &[]);
            if ai_type_src > 3 {
                assert_eq!(answer, refusal(6, ai_type_src.into()));
            } else {
                assert_eq!(answer.unwrap().header[Field::SrcId], src_id);
            }
        }
    }
}

/// Header bits 32 to 35: the low two bits of AiTypeDst, and DfcId.
fn set_lost_bits(header: &mut Header, four: u16) {
    header[Field::AiTypeDst] = 4 | four >> 2;
    header[Field::DfcId] = four & 3;
}

#[test]
fn a_header_of_one_edition_reads_the_same_under_the_other_where_bits_32_to_35_are_zero() {
    let mut rng = Rng::new(22);
    for written in EDITIONS {
        let read = Rules {
            edition: written.other(),
            limit: 42,
        };
        for round in 0..320 {
            // SrcId to 7 in both
            let mut given = given_under(Edition::Flown, &mut rng);
            let mut header = Header::default();
            set_lost_bits(&mut header, round % 16);
            for field in [Field::AiTypeDst, Field::DfcId] {
                given[field as usize] = header[field];
            }
            let air = written_under(written, &given, &[]);
            let own = read_header(usual(written), None, &air).unwrap();
            if round % 16 == 0 {
                assert_eq!(read_header(read, None, &air), Ok(own));
            } else {
                let worked_out = own.header.crc5(read.edition);
                assert_eq!(read_header(read, None, &air), refusal(4, worked_out.into()));
            }
        }
    }
}

#[test]
fn the_order_of_refusals_is_the_same_under_the_corrected_edition_but_for_5() {
    let mut air = sealed_under(Edition::Corrected, &[], |header| {
        set_lost_bits(header, 0b1001);
        header[Field::SrcId] = 100;
        header[Field::AiTypeSrc] = 9;
        header[Field::Crc13] ^= 1;
    });
    let read = |limit: u32, air: &[u8]| {
        let edition = Edition::Corrected;
        read_frame(Rules { edition, limit }, None, air, &[])
    };
    assert_eq!(read(42, &air), refusal(6, 9));
    // word 13 as another valid word: CRC5 is another one
    flip_pattern(&mut air, 13, 0x0537);
    assert!(matches!(read(42, &air), Err(Refusal { number: 4, .. })));
    flip_pattern(&mut air, 1, 0x0011);
    assert_eq!(read(1, &air), refusal(21, 2));
    flip_pattern(&mut air, 12, 0x000F);
    assert_eq!(read(1, &air), refusal(3, 12));
    air[209] = 2;
    assert_eq!(read(1, &air), refusal(2, 209));
    assert_eq!(read(1, &air[1..]), refusal(1, 209));
    assert_eq!(read(43, &air[1..]), refusal(20, 43));
}

#[test]
fn payload_and_damage_are_judged_alike_under_both_editions() {
    let mut rng = Rng::new(23);
    for edition in EDITIONS {
        let rules = Rules { edition, limit: 42 };
        for _ in 0..200 {
            let (given, payload) = (given_under(edition, &mut rng), rng.bytes(20));
            let clean = written_under(edition, &given, &payload);
            let air = with_flips(&mut rng, &clean, 42);
            let header = read_frame(rules, None, &clean, &payload).unwrap().header;
            let patterns = flipped(&clean, &air);
            let heard = Heard { header, patterns };
            assert_eq!(read_frame(rules, None, &air, &payload), Ok(heard));
            assert_eq!(
                read_frame(usual(edition), None, &air, &payload),
                refusal(21, 42)
            );
            assert_eq!(read_frame(rules, None, &air, &payload[1..]), refusal(7, 20));
            let mut other = payload.clone();
            other[3] ^= 4;
            let worked_out = crc13(&other);
            let answer = read_frame(rules, None, &air, &other);
            assert_eq!(answer, refusal(8, worked_out.into()));
        }
    }
}

/// A flown frame of this source, without payload.
fn of_source(src_id: u16) -> [u8; AIR_BITS] {
    sealed(&[], |header| header[Field::SrcId] = src_id)
}

#[test]
fn each_satellite_agrees_with_its_own_call_sign_alone() {
    for src_id in 0..8 {
        let air = of_source(src_id);
        let without = read_frame(WIDEST, None, &air, &[]);
        assert!(without.is_ok());
        for satellite in 0..4 {
            let call = call_sign_bits(satellite);
            let answer = if satellite == usize::from(src_id / 2) {
                without
            } else {
                refusal(24, src_id.into())
            };
            assert_eq!(read_frame(WIDEST, Some(&call), &air, &[]), answer);
            assert_eq!(read_header(WIDEST, Some(&call), &air), answer);
        }
    }
}

#[test]
fn no_bit_of_a_call_sign_is_forgiven() {
    for src_id in 0..8 {
        let air = of_source(src_id);
        let right = call_sign_bits(usize::from(src_id / 2));
        for at in 0..48 {
            let mut call = right;
            call[at] ^= 1;
            let answer = read_header(WIDEST, Some(&call), &air);
            assert_eq!(answer, refusal(24, src_id.into()));
        }
    }
}

#[test]
fn a_call_sign_is_six_characters_in_reading_order_lowest_bit_first() {
    let spelled = |text: &str, lowest_first: bool| -> Vec<u8> {
        let bits = |c: u8| (0..8).map(move |i| c >> (if lowest_first { i } else { 7 - i }) & 1);
        text.bytes().flat_map(bits).collect()
    };
    let answer = |call: Vec<u8>| read_header(WIDEST, Some(&call), &of_source(4)).is_ok();
    assert!(answer(spelled("DP0TBD", true)));
    // the letter O of Table 2; small letters; from the last character; highest bit first
    for wrong in ["DPOTBD", "dp0tbd", "DBT0PD", "DP0TBB", "DP0TB D", ""] {
        assert!(!answer(spelled(wrong, true)));
    }
    assert!(!answer(spelled("DP0TBD", false)));
}

#[test]
fn refusal_23_is_another_length_and_then_the_lowest_element_above_1() {
    let air = of_source(0);
    for length in (0..48).chain(49..130) {
        // even where an element is above 1, or all of them
        for element in [0, 1, 2, 255] {
            let call = vec![element; length];
            assert_eq!(read_header(WIDEST, Some(&call), &air), refusal(23, length));
        }
    }
    for index in 0..48 {
        for value in [2, 3, 128, 255] {
            let mut call = call_sign_bits(0);
            call[47] = value;
            call[index] = value;
            assert_eq!(read_header(WIDEST, Some(&call), &air), refusal(23, index));
        }
    }
}

#[test]
fn refusal_23_comes_after_2_and_before_3() {
    let mut air = of_source(0);
    flip_pattern(&mut air, 0, 0x000F);
    let read = |limit: u32, air: &[u8]| read_frame(flown(limit), Some(&[1; 47]), air, &[1]);
    assert_eq!(read(0, &air), refusal(23, 47));
    air[100] = 2;
    assert_eq!(read(0, &air), refusal(2, 100));
    assert_eq!(read(0, &air[1..]), refusal(1, 209));
    assert_eq!(read(43, &air[1..]), refusal(20, 43));
}

#[test]
fn refusal_24_comes_after_5_and_before_6() {
    let other = call_sign_bits(3);
    let read = |air: &[u8]| read_frame(WIDEST, Some(&other), air, &[1]);
    let wrong = |src_id: u16| {
        sealed(&[], |header| {
            header[Field::SrcId] = src_id;
            header[Field::AiTypeSrc] = 9;
        })
    };
    assert_eq!(read(&wrong(5)), refusal(24, 5));
    assert_eq!(read(&wrong(6)), refusal(6, 9));
    for src_id in 8..128 {
        assert_eq!(read(&wrong(src_id)), refusal(5, src_id.into()));
    }
}

#[test]
fn the_repaired_headers_satellite_is_what_agrees() {
    // SrcId 3 is received as 2, as 1 and as 7, and within repair.
    for (word, pattern) in [(1, 0x2000), (1, 0x4000), (0, 0x0400)] {
        let mut air = of_source(3);
        flip_pattern(&mut air, word, pattern);
        for satellite in 0..4 {
            let call = call_sign_bits(satellite);
            let answer = read_header(WIDEST, Some(&call), &air);
            let src_id = answer.map(|heard| heard.header[Field::SrcId]);
            assert_eq!(
                src_id,
                if satellite == 1 {
                    Ok(3)
                } else {
                    refusal(24, 3)
                }
            );
        }
    }
}

#[test]
fn under_the_corrected_edition_call_signs_are_not_looked_at() {
    let calls: [&[u8]; 5] = [
        &[],
        &[9; 48],
        &[0; 49],
        &call_sign_bits(0),
        &call_sign_bits(3),
    ];
    for src_id in [0, 1, 6, 7, 8, 97, 127] {
        for ai_type_src in [0, 9] {
            let air = sealed_under(Edition::Corrected, &[], |header| {
                header[Field::SrcId] = src_id;
                header[Field::AiTypeSrc] = ai_type_src;
            });
            for call in calls {
                let without = read_frame(CORRECTED, None, &air, &[]);
                assert_eq!(read_frame(CORRECTED, Some(call), &air, &[]), without);
                assert_eq!(read_header(CORRECTED, Some(call), &air), without);
            }
        }
    }
}

#[test]
fn a_call_sign_that_agrees_changes_no_answer() {
    let mut rng = Rng::new(24);
    for _ in 0..500 {
        let (given, payload) = (given(&mut rng), rng.bytes(9));
        let clean = written(&given, &payload);
        let flips = rng.below(43);
        let mut air = with_flips(&mut rng, &clean, flips);
        if rng.one_in(4) {
            flip_pattern(&mut air, 12, 0x000F);
        }
        let call = call_sign_bits(usize::from(given[0] / 2));
        let rules = flown(rng.below(50));
        let without = read_frame(rules, None, &air, &payload);
        assert_eq!(read_frame(rules, Some(&call), &air, &payload), without);
    }
}
