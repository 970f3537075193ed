//! Packets: chunks of any item, and messages of a run as packets that are lost, repeated, damaged or of another run.

use rolwyddac::{
    chunk, fingerprint, packet, packet_read, Board, Fields, PacketLine, Received, Recipe, Refusal,
    Route::{Direct, Indirect},
    Taken, KIND_MESSAGE, LONGEST_PACKET, PACKET_WORDS,
};

const RUN: u64 = 0x0123_4567_89AB_CDEF;

fn row_d() -> Recipe {
    Fields::new().dimension(4, 2, 2).dimension(1, 1, 0).distance(&[1, 0], 1).close(0, 0).unwrap()
}

#[test]
fn an_item_in_two_chunks() {
    let recipe = row_d();
    let mark = fingerprint(&recipe, Direct).unwrap();
    assert_ne!(mark, fingerprint(&recipe, Indirect).unwrap());
    let item: Vec<u32> = (0..300).collect();
    let (mut area, mut mask) = (vec![9; 300], 0);
    for k in [1, 1, 0] {
        let mut space = [7; LONGEST_PACKET];
        let length = packet(mark, RUN, 5, 4, 2, 3, 6, k, &item, &mut space).unwrap() as usize;
        let count = if k == 0 { 285 } else { 15 };
        assert_eq!(length, 60 + 4 * count);
        assert!(space[length..].iter().all(|&byte| byte == 7));
        let mut words = [8; PACKET_WORDS];
        let line = packet_read(mark, RUN, &space[..length], &mut words).unwrap();
        let wanted =
            PacketLine { kind: 4, sender: 2, taker: 3, item: 6, chunk: k, chunks: 2, count: count as u32, life: 5 };
        assert_eq!(line, wanted);
        let taken = chunk(line.chunk, line.chunks, &words[..count], &mut area, mask).unwrap();
        assert_eq!(taken, Taken { whole: u32::from(k == 0), mask: mask | 1 << k });
        mask = taken.mask;
    }
    assert_eq!(area, item);
    let mut space = [0; LONGEST_PACKET];
    assert_eq!(packet(mark, RUN, 5, 4, 2, 3, 6, 2, &item, &mut space), Err(Refusal::NoSuch));
    assert_eq!(packet(mark, RUN, 5, 4, 2, 3, 6, 0, &vec![0; 18_241], &mut space), Err(Refusal::Area));
    assert_eq!(packet(mark, RUN, 5, 4, 2, 3, 6, 0, &item, &mut space[1..]), Err(Refusal::Area));
    assert_eq!(space, [0; LONGEST_PACKET]);
}

#[test]
fn whatever_comes_that_is_no_packet_of_this_run() {
    let mark = fingerprint(&row_d(), Direct).unwrap();
    let mut space = [0; LONGEST_PACKET];
    let length = packet(mark, RUN, 0, KIND_MESSAGE, 0, 1, 0, 0, &[2, 3], &mut space).unwrap() as usize;
    let (sent, mut words) = (&space[..length], [8; PACKET_WORDS]);
    for bit in 0..8 * length {
        let mut changed = sent.to_vec();
        changed[bit / 8] ^= 1 << (bit % 8);
        assert_eq!(packet_read(mark, RUN, &changed, &mut words), Err(Refusal::Damaged));
    }
    (0..length).for_each(|cut| assert_eq!(packet_read(mark, RUN, &sent[..cut], &mut words), Err(Refusal::Damaged)));
    assert_eq!(packet_read(mark, RUN + 1, sent, &mut words), Err(Refusal::Stale));
    assert_eq!(packet_read(mark + 1, RUN, sent, &mut words), Err(Refusal::Stale));
    assert_eq!(packet_read(mark, RUN, sent, &mut words[..1]), Err(Refusal::Area));
    assert_eq!(words, [8; PACKET_WORDS]);
}

#[test]
fn row_d_by_packets() {
    let (recipe, source) = (row_d(), [1; 4]);
    let [mut first, mut second] = [0, 1].map(|b| Board::start(&recipe, Direct, &source, b).unwrap());
    (0..3).for_each(|_| first.turn().unwrap());
    assert_eq!(first.packet(RUN, 1, 0, 0), Err(Refusal::NoMail));
    first.post(0).unwrap();
    let sent = first.packet(RUN, 1, 0, 0).unwrap();
    assert_eq!(first.packet(RUN, 1, 0, 1), Err(Refusal::NoSuch));
    assert_eq!(second.packet(RUN, 1, 0, 0), Err(Refusal::NoSuch));
    let before = second.areas().clone();
    assert_eq!(second.receive(RUN, &sent[1..]), Err(Refusal::Damaged));
    assert_eq!(second.receive(RUN + 1, &sent), Err(Refusal::Stale));
    assert_eq!(second.areas(), &before);
    assert_eq!(first.receive(RUN, &sent), Err(Refusal::NoSuch));
    assert_eq!(second.receive(RUN, &sent), Ok(Received { whole: 1, message: 0 }));
    // posted again in another life: the same words, and turned away
    assert_eq!(second.receive(RUN, &first.packet(RUN, 2, 0, 0).unwrap()), Err(Refusal::NoMail));
    (0..2).for_each(|_| second.turn().unwrap());
    assert_eq!(second.memory(), [0, 2, 3, 4]);
}
