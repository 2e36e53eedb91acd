//! The pass sheet over whole histories.

use independent::air::AIR_BITS;
use independent::call_sign::call_sign_bits;
use independent::header::{Field, Header};
use independent::refusal::Refusal;
use independent::rng::Rng;
use independent::rules::{usual, Edition, Rules};
use independent::sample::{burst, flip_pattern, seal};
use independent::sheet::{Lane, Sheet, Source, FULL};

/// A frame of a responder, without payload.
fn frame(src_id: u16, fr_cnt_tx: u16) -> [u8; AIR_BITS] {
    frame_of(src_id, 0, fr_cnt_tx)
}

/// A frame without payload, with this Caller bit.
fn frame_of(src_id: u16, caller: u16, fr_cnt_tx: u16) -> [u8; AIR_BITS] {
    let mut header = Header::default();
    header[Field::SrcId] = src_id;
    header[Field::Caller] = caller;
    header[Field::FrCntTx] = fr_cnt_tx;
    seal(Edition::Flown, &mut header, &[]);
    header.to_air()
}

#[test]
fn accepted_frames_touch_their_lane_alone() {
    let mut sheet = Sheet::new(Edition::Flown);
    for (src_id, fr_cnt_tx) in [(0, 14), (5, 3), (0, 1), (5, 3), (0, 1), (5, 2)] {
        let mut air = frame(src_id, fr_cnt_tx);
        flip_pattern(&mut air, 2, 0x4001);
        let heard = sheet.offer(usual(Edition::Flown), None, &air, &[]).unwrap();
        let patterns = [0, 0, 0x4001, 0, 0, 0, 0, 0, 0, 0, 0, 0, 0, 0];
        assert_eq!(heard.patterns, patterns);
        assert_eq!((heard.flips(), heard.worst()), (2, 2));
    }
    let mut expected = Sheet::new(Edition::Flown);
    expected.sources[0].responder = Lane {
        accepted: 3,
        repaired: 6,
        missed: 2,
        repeats: 1,
        last: Some(1),
    };
    expected.sources[5].responder = Lane {
        accepted: 3,
        repaired: 6,
        missed: 14,
        repeats: 1,
        last: Some(2),
    };
    assert_eq!(sheet, expected);
    assert_eq!(sheet.offered(), 6);
}

#[test]
fn refused_frames_touch_no_source() {
    let mut sheet = Sheet::new(Edition::Flown);
    sheet
        .offer(usual(Edition::Flown), None, &frame(1, 4), &[])
        .unwrap();
    let source = sheet.sources[1];

    let good = frame(1, 9);
    let mut above = good;
    above[3] = 2;
    let mut beyond = good;
    flip_pattern(&mut beyond, 3, 0x000F);
    let changed = |change: fn(&mut Header)| {
        let mut header = Header::default();
        seal(Edition::Flown, &mut header, &[]);
        change(&mut header);
        header[Field::Crc5] = header.crc5(Edition::Flown);
        header.to_air()
    };
    let offers: [(&[u8], &[u8]); 8] = [
        (&good[1..], &[]),
        (&above, &[]),
        (&beyond, &[]),
        (&[0; AIR_BITS], &[]),
        (&changed(|header| header[Field::SrcId] = 8), &[]),
        (&changed(|header| header[Field::AiTypeSrc] = 4), &[]),
        (&good, &[1]),
        (&changed(|header| header[Field::Crc13] = 0), &[]),
    ];
    for (i, (air, payload)) in offers.into_iter().enumerate() {
        let before = sheet.refused;
        let refusal = sheet
            .offer(usual(Edition::Flown), None, air, payload)
            .unwrap_err();
        assert_eq!(usize::from(refusal.number), i + 1);
        let mut after = before;
        after[i] += 1;
        assert_eq!(sheet.refused, after);
    }
    assert_eq!(sheet.refused, [1, 1, 1, 1, 1, 1, 1, 1, 0, 0, 0, 0]);
    assert_eq!(sheet.sources[1], source);
    assert_eq!(sheet.offered(), 9);
    // Counter 9 was only ever refused: from 4 to 5 nothing is missed.
    sheet
        .offer(usual(Edition::Flown), None, &frame(1, 5), &[])
        .unwrap();
    assert_eq!(sheet.sources[1].responder.missed, 0);
}

/// A frame with 29 flips, one more than are believed where no limit is named.
fn faded(src_id: u16, fr_cnt_tx: u16) -> [u8; AIR_BITS] {
    let mut air = frame(src_id, fr_cnt_tx);
    burst(&mut air, 80, 29);
    air
}

#[test]
fn limits_are_counted_and_are_in_the_total() {
    let mut sheet = Sheet::new(Edition::Flown);
    let limit = |limit| Rules {
        edition: Edition::Flown,
        limit,
    };
    assert_eq!(
        sheet.offer(limit(43), None, &[], &[]),
        Err(Refusal::new(20, 43usize))
    );
    assert_eq!(
        sheet.offer(usual(Edition::Flown), None, &faded(3, 1), &[]),
        Err(Refusal::new(21, 29usize))
    );
    assert_eq!(
        sheet.offer(limit(28), None, &faded(3, 1), &[]),
        Err(Refusal::new(21, 29usize))
    );
    assert_eq!(sheet.refused, [0, 0, 0, 0, 0, 0, 0, 0, 1, 2, 0, 0]);
    assert_eq!((sheet.offered(), sheet.refused_total()), (3, 3));
    assert_eq!(sheet.sources, Sheet::new(Edition::Flown).sources);
    // The limit is the offer's, not the sheet's.
    let heard = sheet.offer(limit(29), None, &faded(3, 1), &[]).unwrap();
    assert_eq!((heard.flips(), sheet.source(3).repaired()), (29, 29));
    assert_eq!((sheet.offered(), sheet.accepted_total()), (4, 1));
}

#[test]
fn refusal_20_comes_after_17_and_fills_a_sheet_as_others_do() {
    for (place, offer) in [(8, 43), (9, 0), (8, u32::MAX)] {
        let mut sheet = Sheet::new(Edition::Flown);
        sheet.refused[place] = FULL as u32 - 1;
        let rules = Rules {
            edition: Edition::Flown,
            limit: offer,
        };
        let number = if offer == 0 { 21 } else { 20 };
        assert_eq!(
            sheet
                .offer(rules, None, &faded(0, 0), &[])
                .unwrap_err()
                .number,
            number
        );
        assert_eq!(sheet.refused[place], FULL as u32);
        let full = sheet.clone();
        for limit in [0, 28, 43, u32::MAX] {
            let answer = sheet.offer(Rules { limit, ..rules }, None, &faded(0, 0), &[]);
            assert_eq!(answer, Err(Refusal::new(17, FULL)));
        }
        assert_eq!(sheet, full);
    }
}

#[test]
fn a_sheet_is_full_after_65535_offers() {
    let mut sheet = Sheet::new(Edition::Flown);
    let (good, bad) = (frame(6, 0), [2; AIR_BITS]);
    for offer in 0..FULL {
        let answer = if offer % 1_000 == 0 {
            sheet.offer(usual(Edition::Flown), None, &good, &[]).err()
        } else {
            sheet.offer(usual(Edition::Flown), None, &bad, &[]).err()
        };
        assert_ne!(answer.map(|refusal| refusal.number), Some(17));
    }
    let before = sheet.clone();
    assert_eq!(
        (sheet.accepted_total(), sheet.refused_total()),
        (66, 65_469)
    );
    for air in [&good[..], &bad[..], &[]] {
        assert_eq!(
            sheet.offer(usual(Edition::Flown), None, air, &[]),
            Err(Refusal::new(17, 65_535usize))
        );
    }
    assert_eq!(sheet, before);
}

#[test]
fn accepted_and_refused_are_the_history() {
    let mut rng = Rng::new(6);
    let mut sheet = Sheet::new(Edition::Flown);
    let (mut accepted, mut refused) = (0, 0);
    for _ in 0..500 {
        let mut air = frame(rng.below(8) as u16, rng.below(16) as u16);
        flip_pattern(&mut air, 4, rng.below(0x8000) as u16);
        match sheet.offer(usual(Edition::Flown), None, &air, &[]) {
            Ok(_) => accepted += 1,
            Err(_) => refused += 1,
        }
        assert_eq!(sheet.accepted_total(), accepted);
        assert_eq!(sheet.refused_total(), refused);
    }
    assert!(accepted > 0 && refused > 0);
}

#[test]
fn made_up_counts_stay_at_the_largest() {
    let mut sheet = Sheet::new(Edition::Flown);
    sheet.sources[2].responder = Lane {
        accepted: 65_533,
        repaired: u32::MAX,
        missed: u32::MAX - 1,
        repeats: u32::MAX,
        last: Some(8),
    };
    let mut air = frame(2, 8);
    flip_pattern(&mut air, 0, 1);
    sheet.offer(usual(Edition::Flown), None, &air, &[]).unwrap();
    sheet
        .offer(usual(Edition::Flown), None, &frame(2, 12), &[])
        .unwrap();
    let expected = Lane {
        accepted: 65_535,
        repaired: u32::MAX,
        missed: u32::MAX,
        repeats: u32::MAX,
        last: Some(12),
    };
    assert_eq!(sheet.sources[2].responder, expected);
    assert_eq!(sheet.sources[2].caller, Lane::default());
    assert_eq!(
        sheet.offer(usual(Edition::Flown), None, &air, &[]),
        Err(Refusal::new(17, FULL))
    );
}

#[test]
fn the_caller_bit_names_the_lane() {
    for src_id in 0..8 {
        for (caller, fr_cnt_tx) in [(1, 6), (0, 11)] {
            let mut sheet = Sheet::new(Edition::Flown);
            sheet
                .offer(
                    usual(Edition::Flown),
                    None,
                    &frame_of(src_id, caller, fr_cnt_tx),
                    &[],
                )
                .unwrap();
            let heard = Lane {
                accepted: 1,
                last: Some(fr_cnt_tx as u8),
                ..Lane::default()
            };
            let mut expected = Sheet::new(Edition::Flown);
            expected.sources[usize::from(src_id)] = if caller == 1 {
                Source {
                    caller: heard,
                    responder: Lane::default(),
                }
            } else {
                Source {
                    caller: Lane::default(),
                    responder: heard,
                }
            };
            assert_eq!(sheet, expected);
        }
    }
}

#[test]
fn a_radio_keeps_one_frame_counter_as_caller_and_another_as_responder() {
    let mut sheet = Sheet::new(Edition::Flown);
    // 3, 4, 6 as caller; 4, 4, 5 as responder: one is missed there, one repeated here, and nothing else.
    for (caller, fr_cnt_tx) in [(1, 3), (0, 4), (1, 4), (0, 4), (1, 6), (0, 5)] {
        let mut air = frame_of(2, caller, fr_cnt_tx);
        burst(&mut air, 0, 1 + usize::from(caller));
        sheet.offer(usual(Edition::Flown), None, &air, &[]).unwrap();
    }
    let source = Source {
        caller: Lane {
            accepted: 3,
            repaired: 6,
            missed: 1,
            repeats: 0,
            last: Some(6),
        },
        responder: Lane {
            accepted: 3,
            repaired: 3,
            missed: 0,
            repeats: 1,
            last: Some(5),
        },
    };
    assert_eq!(sheet.source(2), source);
    assert_eq!((source.accepted(), source.repaired()), (6, 9));
    assert_eq!((sheet.accepted_total(), sheet.offered()), (6, 6));
}

/// A lane of a source: the source, and its Caller bit.
type LaneOf = (u16, u16);

/// A frame by chance, some of them damaged beyond repair, and the lane that it names.
fn any_frame(rng: &mut Rng) -> (LaneOf, [u8; AIR_BITS]) {
    let lane = (rng.below(8) as u16, rng.below(2) as u16);
    let mut air = frame_of(lane.0, lane.1, rng.below(16) as u16);
    flip_pattern(
        &mut air,
        0,
        [0x0000, 0x0001, 0x4001, 0x000F][rng.below(4) as usize],
    );
    (lane, air)
}

#[test]
fn a_lanes_numbers_depend_on_that_lanes_accepted_frames_only() {
    let mut rng = Rng::new(19);
    let history: Vec<_> = (0..3_000).map(|_| any_frame(&mut rng)).collect();
    let mut whole = Sheet::new(Edition::Flown);
    let mut accepted = Vec::new();
    for (lane, air) in &history {
        if whole.offer(usual(Edition::Flown), None, air, &[]).is_ok() {
            accepted.push((*lane, air));
        }
    }
    for src_id in 0..8 {
        for caller in [0, 1] {
            let mut alone = Sheet::new(Edition::Flown);
            for (lane, air) in &accepted {
                if *lane == (src_id, caller) {
                    alone
                        .offer(usual(Edition::Flown), None, &air[..], &[])
                        .unwrap();
                }
            }
            let of = |sheet: &Sheet| {
                let source = sheet.source(src_id.into());
                if caller == 1 {
                    source.caller
                } else {
                    source.responder
                }
            };
            assert_eq!(of(&whole), of(&alone));
            assert!(of(&whole).missed > 0 && of(&whole).repeats > 0);
        }
    }
}

#[test]
fn frames_of_both_lanes_fill_a_sheet() {
    for (of_caller, of_responder) in [(65_534, 0), (0, 65_534), (30_000, 35_534)] {
        for caller in [0, 1] {
            let mut sheet = Sheet::new(Edition::Flown);
            sheet.sources[5].caller.accepted = of_caller;
            sheet.sources[5].responder.accepted = of_responder;
            let air = frame_of(5, caller, 0);
            assert!(sheet.offer(usual(Edition::Flown), None, &air, &[]).is_ok());
            let full = sheet.clone();
            let answer = sheet.offer(usual(Edition::Flown), None, &air, &[]);
            assert_eq!(answer, Err(Refusal::new(17, FULL)));
            assert_eq!(sheet, full);
            assert_eq!(sheet.source(5).accepted(), 65_535);
        }
    }
}

/// A corrected frame of a caller, without payload; AiTypeDst is such that its CRC5 is not the flown one.
fn corrected(src_id: u16, fr_cnt_tx: u16) -> [u8; AIR_BITS] {
    let mut header = Header::default();
    header[Field::SrcId] = src_id;
    header[Field::Caller] = 1;
    header[Field::AiTypeDst] = 1;
    header[Field::FrCntTx] = fr_cnt_tx;
    seal(Edition::Corrected, &mut header, &[]);
    header.to_air()
}

#[test]
fn a_corrected_sheet_has_a_record_for_each_of_128_sources() {
    let rules = usual(Edition::Corrected);
    let mut sheet = Sheet::new(Edition::Corrected);
    for src_id in 0..128 {
        for fr_cnt_tx in [3, 3, 6] {
            sheet
                .offer(rules, None, &corrected(src_id, fr_cnt_tx), &[])
                .unwrap();
        }
    }
    let expected = Lane {
        accepted: 3,
        repaired: 0,
        missed: 2,
        repeats: 1,
        last: Some(6),
    };
    assert_eq!(sheet.sources.len(), 128);
    for source in &sheet.sources {
        assert_eq!(
            (source.caller, source.responder),
            (expected, Lane::default())
        );
    }
    assert_eq!((sheet.offered(), sheet.refused_total()), (3 * 128, 0));
}

#[test]
fn refusal_22_is_a_frame_of_the_other_edition_and_changes_nothing() {
    for edition in [Edition::Flown, Edition::Corrected] {
        let mut sheet = Sheet::new(edition);
        sheet.refused[2] = 5;
        sheet.sources[7].caller.last = Some(3);
        let before = sheet.clone();
        // before 20, 1, 2, 3, 4 and what would be accepted
        let mut beyond = frame(0, 0);
        flip_pattern(&mut beyond, 3, 0x000F);
        let slices: [&[u8]; 6] = [
            &frame(1, 4),
            &corrected(1, 4),
            &[0; AIR_BITS],
            &[2; AIR_BITS],
            &beyond,
            &[],
        ];
        for slice in slices {
            for limit in [0, 28, 42, 43, u32::MAX] {
                let rules = Rules {
                    edition: edition.other(),
                    limit,
                };
                let answer = sheet.offer(rules, None, slice, &[]);
                assert_eq!(answer, Err(Refusal::new(22, 0usize)));
                assert_eq!(sheet, before);
                assert_eq!(sheet.offered(), 5);
            }
        }
    }
}

#[test]
fn refusal_22_comes_after_17() {
    for edition in [Edition::Flown, Edition::Corrected] {
        let mut sheet = Sheet::new(edition);
        sheet.refused[0] = FULL as u32 - 1;
        let (own, other) = (usual(edition), usual(edition.other()));
        assert_eq!(
            sheet.offer(other, None, &[], &[]),
            Err(Refusal::new(22, 0usize))
        );
        // It was not offered: there is room for one more.
        assert_eq!(
            sheet.offer(own, None, &[], &[]),
            Err(Refusal::new(1, 0usize))
        );
        assert_eq!(
            sheet.offer(other, None, &[], &[]),
            Err(Refusal::new(17, FULL))
        );
        assert_eq!(
            sheet.offer(own, None, &[], &[]),
            Err(Refusal::new(17, FULL))
        );
    }
}

#[test]
fn a_corrected_sheet_counts_refusals_as_a_flown_one_does() {
    let mut sheet = Sheet::new(Edition::Corrected);
    let rules = usual(Edition::Corrected);
    let good = corrected(90, 1);
    let mut above = good;
    above[3] = 2;
    let mut beyond = good;
    flip_pattern(&mut beyond, 3, 0x000F);
    let mut faded = good;
    burst(&mut faded, 30, 29);
    let no_limit = Rules { limit: 43, ..rules };
    let offers: [(Rules, &[u8], &[u8]); 7] = [
        (rules, &good[1..], &[]),
        (rules, &above, &[]),
        (rules, &beyond, &[]),
        (rules, &[0; AIR_BITS], &[]),
        (rules, &good, &[1]),
        (no_limit, &good, &[]),
        (rules, &faded, &[]),
    ];
    for (rules, air, payload) in offers {
        assert!(sheet.offer(rules, None, air, payload).is_err());
    }
    assert_eq!(sheet.refused, [1, 1, 1, 1, 0, 0, 1, 0, 1, 1, 0, 0]);
    assert_eq!(sheet.sources, Sheet::new(Edition::Corrected).sources);
}

#[test]
fn call_signs_are_counted_and_are_in_the_total() {
    let rules = usual(Edition::Flown);
    let mut sheet = Sheet::new(Edition::Flown);
    let air = frame(2, 5);
    let (right, other) = (call_sign_bits(1), call_sign_bits(0));
    let mut above = right;
    above[47] = 2;
    for (call, answer) in [
        (&right[1..], Refusal::new(23, 47usize)),
        (&above, Refusal::new(23, 47usize)),
        (&other, Refusal::new(24, 2usize)),
        (&[], Refusal::new(23, 0usize)),
    ] {
        assert_eq!(sheet.offer(rules, Some(call), &air, &[]), Err(answer));
    }
    assert_eq!(sheet.refused, [0, 0, 0, 0, 0, 0, 0, 0, 0, 0, 3, 1]);
    assert_eq!((sheet.offered(), sheet.refused_total()), (4, 4));
    assert_eq!(sheet.sources, Sheet::new(Edition::Flown).sources);
    sheet.offer(rules, Some(&right), &air, &[]).unwrap();
    assert_eq!((sheet.offered(), sheet.accepted_total()), (5, 1));
    // 17 comes first
    sheet.refused[11] = FULL as u32 - 4;
    for call in [None, Some(&right[..]), Some(&other), Some(&[])] {
        assert_eq!(
            sheet.offer(rules, call, &air, &[]),
            Err(Refusal::new(17, FULL))
        );
    }
}

#[test]
fn a_corrected_sheet_does_not_look_at_call_signs() {
    let rules = usual(Edition::Corrected);
    for call in [&[][..], &[7; 48], &call_sign_bits(0)] {
        let mut with = Sheet::new(Edition::Corrected);
        let mut without = with.clone();
        for src_id in [0, 2, 97] {
            let air = corrected(src_id, 9);
            let heard = without.offer(rules, None, &air, &[]);
            assert_eq!(with.offer(rules, Some(call), &air, &[]), heard);
            assert!(heard.is_ok());
        }
        assert_eq!(with, without);
        // not even where it belongs to the other edition
        let flown = usual(Edition::Flown);
        let answer = with.offer(flown, Some(call), &frame(0, 0), &[]);
        assert_eq!(answer, Err(Refusal::new(22, 0usize)));
    }
}

/// The order of all checks.
const ORDER: [u8; 14] = [17, 22, 20, 1, 2, 23, 3, 21, 4, 5, 24, 6, 7, 8];

/// What is answered to an offer that has a reason for each of these refusals.
fn answer_to(wrong: &[u8]) -> Option<u8> {
    let has = |number: u8| wrong.contains(&number);
    let mut header = Header::default();
    // satellite B, or no satellite of S-NET
    header[Field::SrcId] = if has(5) { 100 } else { 2 };
    header[Field::AiTypeSrc] = if has(6) { 9 } else { 1 };
    seal(Edition::Flown, &mut header, &[]);
    header[Field::Crc13] ^= u16::from(has(8));
    header[Field::Crc5] = header.crc5(Edition::Flown) ^ u16::from(has(4));
    let mut air = header.to_air();
    if has(21) {
        burst(&mut air, 98, 28);
        flip_pattern(&mut air, 5, 1);
    }
    if has(3) {
        flip_pattern(&mut air, 2, 0x000F);
    }
    if has(2) {
        air[150] = 2;
    }
    let air = if has(1) { &air[1..] } else { &air[..] };
    let mut call = call_sign_bits(if has(24) { 3 } else { 1 }).to_vec();
    if has(23) {
        call.pop();
    }
    let mut sheet = Sheet::new(Edition::Flown);
    sheet.refused[0] = if has(17) { FULL as u32 } else { 0 };
    let rules = Rules {
        edition: if has(22) {
            Edition::Corrected
        } else {
            Edition::Flown
        },
        limit: if has(20) { 43 } else { 28 },
    };
    let payload: &[u8] = if has(7) { &[1] } else { &[] };
    let answer = sheet.offer(rules, Some(&call), air, payload);
    answer.err().map(|refusal| refusal.number)
}

#[test]
fn of_several_refusals_the_first_in_the_order_of_checks_is_given() {
    assert_eq!(answer_to(&[]), None);
    for first in 0..ORDER.len() {
        // alone, and with everything that comes after it, and with each one thing of that
        assert_eq!(answer_to(&[ORDER[first]]), Some(ORDER[first]));
        assert_eq!(answer_to(&ORDER[first..]), Some(ORDER[first]));
        for &later in &ORDER[first + 1..] {
            let both = [later, ORDER[first]];
            assert_eq!(answer_to(&both), Some(ORDER[first]), "{both:?}");
        }
    }
}
