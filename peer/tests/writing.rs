//! Request E2's writer: the bytes of each kind, its refusals, and the buffer's room.

use peer::{replay, write_record, Event};

fn reference(mode: u32, space: u32, access: u32, phase: u32, va: u16) -> Event {
    Event::Reference {
        mode,
        space,
        access,
        phase,
        va,
    }
}

fn read(address: u32) -> Event {
    Event::Read { address }
}

fn write(address: u32, value: u16) -> Event {
    Event::Write { address, value }
}

fn change(register: u32, amount: i32) -> Event {
    Event::Change { register, amount }
}

/// One event of each kind and its record.
fn each_kind() -> [(Event, &'static [u8]); 7] {
    [
        (
            reference(3, 1, 0, 1, 0o167456),
            &[1, 3, 1, 0, 1, 0x2E, 0xEF],
        ),
        (read(0o772316), &[2, 0xCE, 0xF4, 0x03]),
        (
            write(0o772356, 0o003456),
            &[3, 0xEE, 0xF4, 0x03, 0x2E, 0x07],
        ),
        (Event::Instruction { va: 0o001234 }, &[4, 0x9C, 0x02]),
        (Event::Interrupt { vector: 0o250 }, &[5, 0xA8, 0x00]),
        (change(6, -2), &[6, 6, 0xFE]),
        (Event::Init, &[7]),
    ]
}

/// The event is written, in room enough, as these bytes and no other.
#[track_caller]
fn written(event: Event, record: &[u8]) {
    let mut buffer = [0x55; 20];
    let mut expected = [0x55; 20];
    expected[5..5 + record.len()].copy_from_slice(record);
    assert_eq!(write_record(&mut buffer, 5, event), Ok(5 + record.len()));
    assert_eq!(buffer, expected);
}

/// The event is refused by this number, with room enough and with none.
#[track_caller]
fn refused(event: Event, number: u8) {
    for (length, used) in [(20, 5), (20, 14), (20, 20), (20, 21), (0, 0)] {
        let mut buffer = vec![0x55; length];
        assert_eq!(write_record(&mut buffer, used, event), Err(number));
        assert_eq!(buffer, vec![0x55; length]);
    }
}

#[test]
fn each_kind_has_its_record() {
    for (event, record) in each_kind() {
        written(event, record);
    }
}

#[test]
fn numbers_go_low_byte_first() {
    let va = 0x1234;
    written(reference(8, 9, 10, 11, va), &[1, 8, 9, 10, 11, 0x34, 0x12]);
    written(read(0x123456), &[2, 0x56, 0x34, 0x12]);
    written(write(0x123456, 0x789A), &[3, 0x56, 0x34, 0x12, 0x9A, 0x78]);
    written(Event::Instruction { va }, &[4, 0x34, 0x12]);
    written(Event::Interrupt { vector: va }, &[5, 0x34, 0x12]);
}

#[test]
fn the_least_and_largest_fields_that_fit() {
    written(reference(0, 0, 0, 0, 0), &[1, 0, 0, 0, 0, 0, 0]);
    written(
        reference(255, 255, 255, 255, 0xFFFF),
        &[1, 255, 255, 255, 255, 255, 255],
    );
    written(read(0), &[2, 0, 0, 0]);
    written(read(0xFFFFFF), &[2, 255, 255, 255]);
    written(write(0, 0), &[3, 0, 0, 0, 0, 0]);
    written(write(0xFFFFFF, 0xFFFF), &[3, 255, 255, 255, 255, 255]);
    written(Event::Instruction { va: 0 }, &[4, 0, 0]);
    written(Event::Instruction { va: 0xFFFF }, &[4, 255, 255]);
    written(Event::Interrupt { vector: 0 }, &[5, 0, 0]);
    written(Event::Interrupt { vector: 0xFFFF }, &[5, 255, 255]);
    written(change(0, -128), &[6, 0, 0x80]);
    written(change(255, 127), &[6, 255, 0x7F]);
}

#[test]
fn an_event_that_fits_is_written_even_if_the_unit_would_refuse_it() {
    written(reference(4, 0, 0, 0, 0), &[1, 4, 0, 0, 0, 0, 0]);
    written(reference(0, 2, 0, 0, 0), &[1, 0, 2, 0, 0, 0, 0]);
    written(reference(0, 0, 2, 0, 0), &[1, 0, 0, 2, 0, 0, 0]);
    written(reference(0, 0, 0, 2, 0), &[1, 0, 0, 0, 2, 0, 0]);
    written(read(0o1000000), &[2, 0, 0, 4]);
    written(read(0o777573), &[2, 0x7B, 0xFF, 0x03]);
    written(write(0o777570, 1), &[3, 0x78, 0xFF, 0x03, 1, 0]);
    written(change(8, 1), &[6, 8, 1]);
    written(change(0, 0), &[6, 0, 0]);
    written(change(0, 16), &[6, 0, 16]);
    written(change(0, -17), &[6, 0, 0xEF]);
}

#[test]
fn a_field_too_large_is_refused_by_its_number() {
    for large in [256, 257, 0x10000, 0x1000001, u32::MAX] {
        refused(reference(large, 0, 0, 0, 0), 2);
        refused(reference(0, large, 0, 0, 0), 3);
        refused(reference(0, 0, large, 0, 0), 4);
        refused(reference(0, 0, 0, large, 0), 5);
        refused(change(large, 1), 9);
    }
    for large in [0x1000000, 0x1000001, 0x103FF7A, u32::MAX] {
        refused(read(large), 6);
        refused(write(large, 0), 6);
    }
    for large in [128, -129, 255, 256, -256, 0x10001, i32::MAX, i32::MIN] {
        refused(change(0, large), 9);
        refused(change(256, large), 9);
    }
}

#[test]
fn of_several_the_lowest_number_is_given() {
    refused(reference(256, 256, 256, 256, 0), 2);
    refused(reference(255, 256, 256, 256, 0), 3);
    refused(reference(255, 255, 256, 256, 0), 4);
    refused(reference(255, 255, 255, 256, 0), 5);
    refused(reference(256, 0, 0, 256, 0), 2);
    // A mode the unit would refuse by 2 fits its byte, so the space is refused.
    refused(reference(4, 256, 0, 0, 0), 3);
    // An odd address too large is refused by 6, not 7.
    refused(read(0x1000001), 6);
}

#[test]
fn a_record_is_written_where_it_just_fits_and_not_where_a_byte_lacks() {
    for (event, record) in each_kind() {
        for used in [0, 3] {
            let length = used + record.len();
            let mut expected = vec![0x55; length];
            expected[used..].copy_from_slice(record);
            let mut buffer = vec![0x55; length];
            assert_eq!(write_record(&mut buffer, used, event), Ok(length));
            assert_eq!(buffer, expected);

            let mut short = vec![0x55; length - 1];
            assert_eq!(write_record(&mut short, used, event), Err(14));
            assert_eq!(short, vec![0x55; length - 1]);
        }
    }
}

#[test]
fn used_at_or_beyond_the_buffers_end_leaves_no_room() {
    for (event, _) in each_kind() {
        for used in [20, 21, 40, usize::MAX - 6, usize::MAX] {
            let mut buffer = [0x55; 20];
            assert_eq!(write_record(&mut buffer, used, event), Err(14));
            assert_eq!(buffer, [0x55; 20]);
        }
        for used in [0, 1] {
            assert_eq!(write_record(&mut [], used, event), Err(14));
        }
    }
}

#[test]
fn a_buffer_may_be_longer_than_a_recording_that_can_be_replayed() {
    let limit = 16_777_216;
    let mut buffer = vec![0; limit + 2];
    let mut init = |used| write_record(&mut buffer, used, Event::Init);
    assert_eq!(init(limit), Ok(limit + 1));
    assert_eq!(init(limit + 1), Ok(limit + 2));
    assert_eq!(init(limit + 2), Err(14));
    assert_eq!(buffer[limit - 1..], [0, 7, 7]);
}

#[test]
fn the_whole_case_of_01() {
    let events = [
        write(0o772356, 0o003456),
        write(0o772316, 0o077406),
        write(0o777572, 0o000001),
        reference(0, 0, 0, 0, 0o167456),
        read(0o772316),
    ];
    let mut buffer = [0; 29];
    let mut used = 0;
    for event in events {
        used = write_record(&mut buffer, used, event).unwrap();
    }
    let expected = [
        0x03, 0xEE, 0xF4, 0x03, 0x2E, 0x07, 0x03, 0xCE, 0xF4, 0x03, 0x06, 0x7F, 0x03, 0x7A, 0xFF,
        0x03, 0x01, 0x00, 0x01, 0x00, 0x00, 0x00, 0x00, 0x2E, 0xEF, 0x02, 0xCE, 0xF4, 0x03,
    ];
    assert_eq!(used, 29);
    assert_eq!(buffer, expected);
    let text = replay(&mut [0; 100], &buffer);
    assert_eq!(text, b"D\nD\nD\nG 355256 - 07\nR 077406\n");
}
