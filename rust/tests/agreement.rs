//! What calls say of the same bytes agrees: over buffers drawn from a seed, of pieces that make records, sets and lines.

use brinethimble::*;

/// Pieces of which the buffers are made.
const PIECES: [&[u8]; 12] = [
    b"\x06\x0e\x2b\x34",
    b"\x06\x0e\x2b\x34\x01\x02\x01\x01\x0d\x01\x03\x01\x17\x01\x02\x01",
    b"\x06\x0e\x2b\x34\x02\x43\x01\x01\x0d\x01\x03\x01\x04\x01\x03\x01",
    b"\x06\x0e\x2b\x34\x02\x43\x01\x01\x0d\x01\x03\x01\x04\x01\x02\x03",
    b"\x06\x0e\x2b\x34\x01\x01\x01\x0d\x0e\x15\x00\x01\x00\x01\x00\x00",
    b"\x00",
    b"\x03",
    b"\x81\x14",
    b"\x88\xff\xff\xff\xff\xff\xff\xff\xff",
    b"\x89",
    b"\x00\x02\x00\x09\x00\x00\x00\x06\x00\x00\x00\x06\x00\x00\x00\x01\x43\x05\x00\x00ab",
    b"\x88\x00\x12",
];

/// Numbers that follow from a seed.
struct Draw(u64);

impl Draw {
    /// A number below a bound.
    fn below(&mut self, bound: usize) -> usize {
        self.0 = self.0.wrapping_mul(6_364_136_223_846_793_005).wrapping_add(1_442_695_040_888_963_407);
        (self.0 >> 33) as usize % bound
    }

    /// A buffer of up to 24 pieces.
    fn buffer(&mut self) -> Vec<u8> {
        (0..self.below(25)).flat_map(|_| PIECES[self.below(PIECES.len())]).copied().collect()
    }
}

/// Tries what holds of every buffer on 20,000 of them, with a number below twice its length.
fn on_buffers(holds: impl Fn(&[u8], usize)) {
    let mut draw = Draw(1);
    for _ in 0..20_000 {
        let buffer = draw.buffer();
        let number = draw.below(2 * buffer.len() + 2);
        holds(&buffer, number);
    }
}

/// A record as lent room has it.
fn places(record: Record) -> Listed {
    let form = [record.length_bytes, record.shortest.into()];
    [record.place, record.value_place, record.value.len(), form[0], form[1], record.passed].map(|place| place as u64)
}

#[test]
fn batches_and_steps_give_the_same_records() {
    on_buffers(|s, room| {
        let mut batches = Vec::new();
        let mut lent = vec![[0; 6]; 1 + room % 4];
        let mut at = Cursor::default();
        loop {
            let filled = records_into(s, s.len(), at, &mut lent).unwrap();
            batches.extend_from_slice(&lent[..filled.records]);
            at = filled.next;
            if filled.records < lent.len() {
                break;
            }
        }
        let mut records = Records::of(s);
        assert_eq!(batches, records.by_ref().map(places).collect::<Vec<_>>());
        assert_eq!(at, records.cursor());
    });
}

#[test]
fn an_end_past_the_buffer_is_refused_by_all_and_no_other_is() {
    on_buffers(|s, end| {
        let refused = end > s.len();
        assert_eq!(Records::before(s, end).is_err(), refused);
        assert_eq!(next_klv(s, end, Cursor::default()).is_err(), refused);
        assert_eq!(records_into(s, end, Cursor::default(), &mut []).is_err(), refused);
        assert_eq!(Sony::new(s, end).is_err(), refused);
        assert_eq!(Arri::new(s, end).is_err(), refused);
        assert_eq!(Canon::new(s, end).is_err(), refused);
    });
}

#[test]
fn what_has_arrived_begins_the_finished_list() {
    on_buffers(|s, limit| {
        let limit = limit.max(s.len());
        let finished: Vec<_> = Records::of(s).map(places).collect();
        let mut upload = Arriving::new(limit);
        let mut arrived = Vec::new();
        for count in [s.len() / 3, s.len() / 2, s.len()] {
            arrived.extend(upload.certain(&s[..count]).unwrap().map(places));
        }
        assert!(finished.starts_with(&arrived));
        let mut room = vec![[0; 6]; finished.len() + 1];
        let mut again = Arriving::new(limit);
        assert_eq!(again.certain_into(s, &mut room), Ok(arrived.len()));
        assert_eq!((&room[..arrived.len()], again.cursor()), (&arrived[..], upload.cursor()));
    });
}

#[test]
fn what_was_passed_and_the_records_add_up_to_the_last_ones_end() {
    on_buffers(|s, end| {
        let records: Vec<_> = Records::before(s, end.min(s.len())).unwrap().collect();
        let sum: usize = records.iter().map(|record| record.passed + 16 + record.length_bytes + record.value.len()).sum();
        assert_eq!(sum, records.last().map_or(0, |last| last.value_place + last.value.len()));
    });
}

#[test]
fn every_record_is_in_one_group_of_its_label_or_in_none() {
    on_buffers(|s, _| {
        let tally = tally(s);
        let of = |place: usize| Records::of(s).filter(|record| same_label(record.label, &s[place..place + 16])).count();
        assert!(tally.groups().all(|(first, count)| count == of(first)));
        assert_eq!(tally.groups().map(|(_, count)| count).sum::<usize>() + tally.other as usize, Records::of(s).count());
    });
}

#[test]
fn frames_are_records_and_numbered_in_turn() {
    on_buffers(|s, end| {
        let end = end.min(s.len());
        let records: Vec<_> = Records::before(s, end).unwrap().collect();
        let mut canon = Vec::new();
        for item in Canon::new(s, end).unwrap() {
            match item {
                CanonItem::Frame(frame) => canon.push(frame),
                CanonItem::Given(record) => assert!(records.contains(&record)),
            }
        }
        for frames in [Sony::new(s, end).unwrap().collect(), Arri::new(s, end).unwrap().collect(), canon] {
            assert!(frames.iter().enumerate().all(|(i, frame)| frame.number == i as u64 && records.contains(&frame.element)));
        }
    });
}

#[test]
fn a_payload_is_its_lines_payloads() {
    on_buffers(|s, length| {
        let joined: Vec<u8> = lines(s).flatten().copied().collect();
        let mut room = vec![7; length];
        match payload_into(s, &mut room) {
            Ok(count) => assert_eq!(room[..count], joined),
            Err(refusal) => assert_eq!(refusal, Refusal::NoRoom { needed: joined.len() }),
        }
        assert!(room[joined.len().min(length)..].iter().all(|byte| *byte == 7));
    });
}

#[test]
fn runs_and_items_follow_each_other() {
    on_buffers(|s, _| {
        let ends = |at: usize, record: Record| (record.place == at).then_some(record.value_place + record.value.len());
        assert!(klvs(s).try_fold(0, ends).is_some());
        for coding in [Coding::ONE, Coding::TWO, Coding::BER] {
            let ends = |at: usize, item: Item| (item.place == at).then_some(item.value_place + item.value.len());
            assert!(local_items(s, coding).try_fold(0, ends).is_some());
        }
    });
}

/// Whether the records of the finished walk follow each other from 0 to the end, and no length is 80h.
fn follow(s: &[u8], end: usize) -> bool {
    let mut at = 0;
    let follow = Records::before(s, end).unwrap().all(|record| {
        let follows = record.place == at && (record.length_bytes > 1 || record.shortest);
        at = record.value_place + record.value.len();
        follows
    });
    follow && at == end
}

#[test]
fn the_gate_accepts_where_records_follow_each_other_and_up_to_where_they_break() {
    let some = std::cell::Cell::new(0);
    on_buffers(|s, number| {
        let end = number.min(s.len());
        assert_eq!(strict(s, end).is_ok(), follow(s, end));
        let broken = strict(s, s.len()).err().map_or(s.len(), |refusal| refusal.place().unwrap());
        assert!(strict(s, broken).is_ok() && follow(s, broken));
        some.set(some.get() + u32::from(broken > 0));
    });
    assert!(some.get() > 500);
}

/// Ends an iterator, and asks it again.
fn stays_at_its_end<I: std::iter::FusedIterator>(mut items: I) -> bool {
    items.by_ref().for_each(drop);
    items.next().is_none() && items.next().is_none()
}

#[test]
fn iterators_stay_at_their_end() {
    on_buffers(|s, number| {
        let end = number.min(s.len());
        let limit = s.len() + number;
        let first = FrameCursor::default();
        assert!(stays_at_its_end(Records::before(s, end).unwrap()));
        assert!(stays_at_its_end(Arriving::new(limit).certain(s).unwrap()));
        assert!(stays_at_its_end(Feeding::limit(limit).piece(s).unwrap()));
        assert!(stays_at_its_end(Sony::new(s, end).unwrap()) && stays_at_its_end(Sony::arriving(s, limit, first).unwrap()));
        assert!(stays_at_its_end(Arri::new(s, end).unwrap()) && stays_at_its_end(Arri::arriving(s, limit, first).unwrap()));
        assert!(stays_at_its_end(Canon::new(s, end).unwrap()));
        assert!(stays_at_its_end(klvs(s)) && stays_at_its_end(lines(s)) && stays_at_its_end(package_metadata(s)));
        assert!([Coding::TWO, Coding::BER, Coding::ONE].into_iter().all(|coding| stays_at_its_end(local_items(s, coding))));
        assert!(RandomIndex::of(s).map_or(true, stays_at_its_end));
        assert!(stays_at_its_end(Takes::new(s, end, s, s.len()).unwrap()));
    });
}
