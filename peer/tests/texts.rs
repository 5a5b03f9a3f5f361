//! Whole texts in the notation and their recordings.

use peer::{record, replay, Expected};

#[track_caller]
fn good(text: &str, recording: &[u8]) {
    assert_eq!(record(text.as_bytes()), (recording.to_vec(), None));
}

#[track_caller]
fn bad(text: &str, recording: &[u8], line: usize, expected: Expected) {
    let bad_line = Some((line, expected));
    assert_eq!(record(text.as_bytes()), (recording.to_vec(), bad_line));
}

#[test]
fn each_name_gives_its_bytes() {
    let text = "reference user data write trap 167456\n\
                read 777572\n\
                write 772356 3456\n\
                instruction 1234\n\
                interrupt 250\n\
                change 6 -2\n\
                init\n\
                byte 377\n";
    let recording = [
        &[1, 3, 1, 1, 1, 0x2E, 0xEF][..],
        &[2, 0x7A, 0xFF, 0x03],
        &[3, 0xEE, 0xF4, 0x03, 0x2E, 0x07],
        &[4, 0x9C, 0x02],
        &[5, 0xA8, 0x00],
        &[6, 6, 0xFE],
        &[7],
        &[0xFF],
    ]
    .concat();
    good(text, &recording);
}

#[test]
fn the_whole_case_of_01() {
    let text = "write 772356 3456    # PAR Kernel I 7\n\
                write 772316 77406   # its PDR\n\
                write 777572 1       # relocation on\n\
                reference kernel instruction read instruction 167456\n\
                read 772316\n";
    let recording = [
        0x03, 0xEE, 0xF4, 0x03, 0x2E, 0x07, 0x03, 0xCE, 0xF4, 0x03, 0x06, 0x7F, 0x03, 0x7A, 0xFF,
        0x03, 0x01, 0x00, 0x01, 0x00, 0x00, 0x00, 0x00, 0x2E, 0xEF, 0x02, 0xCE, 0xF4, 0x03,
    ];
    good(text, &recording);
    let replayed = replay(&mut [0; 100], &recording);
    assert_eq!(replayed, b"D\nD\nD\nG 355256 - 07\nR 077406\n");
}

#[test]
fn largest_fields_give_whole_records() {
    let text = "reference 377 377 377 377 177777\nread 77777777\n\
                write 77777777 177777\ninstruction 177777\ninterrupt 177777\n\
                change 377 -200\nchange 0 177\n";
    let recording = [
        &[1, 255, 255, 255, 255, 255, 255][..],
        &[2, 255, 255, 255],
        &[3, 255, 255, 255, 255, 255],
        &[4, 255, 255],
        &[5, 255, 255],
        &[6, 255, 0x80],
        &[6, 0, 0x7F],
    ]
    .concat();
    good(text, &recording);
}

#[test]
fn the_last_line_may_lack_its_line_feed() {
    good("", &[]);
    good("\n", &[]);
    good("init", &[7]);
    good("init\n", &[7]);
    good("init\ninit", &[7, 7]);
    good("init\r\ninit\r\n", &[7, 7]);
    bad("init\nx", &[7], 2, Expected::Name);
    bad("init\nx\n", &[7], 2, Expected::Name);
}

#[test]
fn a_carriage_return_does_not_end_a_line() {
    bad("init\rinit\n", &[], 1, Expected::End);
}

#[test]
fn lines_without_a_word_are_passed_over_but_counted() {
    good("\n \t\r\n# init\n\n\ninit # x\n\n", &[7]);
    bad("\n# x\n\nread\ninit\n", &[], 4, Expected::Address);
}

#[test]
fn nothing_is_recorded_of_a_bad_line_or_after_it() {
    bad("init\nread 777572 0\ninit\n", &[7], 2, Expected::End);
    bad("x\ninit\nread\n", &[], 1, Expected::Name);
    bad("byte 7\nbyte 400\nbyte 7\n", &[7], 2, Expected::Byte);
    let text = "init\nread 777572\nreference kernel data read nought\n";
    bad(text, &[7, 2, 0x7A, 0xFF, 0x03], 3, Expected::Phase);
}

#[test]
fn bytes_make_a_damaged_recording() {
    let text = "init\nbyte 1\nbyte 0\nbyte 10\n";
    good(text, &[7, 1, 0, 8]);
    assert_eq!(replay(&mut [0; 100], &[7, 1, 0, 8]), b"D\nX 12\n");
    good("byte 0\ninit", &[0, 7]);
}

#[test]
fn an_event_the_unit_would_refuse_is_recorded_and_refused_when_replayed() {
    let text = "reference 4 data read trap 0\nread 1000000\nchange 10 0\n";
    let recording = [1, 4, 1, 0, 1, 0, 0, 2, 0, 0, 4, 6, 8, 0];
    good(text, &recording);
    let replayed = replay(&mut [0; 100], &recording);
    assert_eq!(replayed, b"X 02\nX 06\nX 09\n");
}

#[test]
fn a_recording_may_be_longer_than_can_be_replayed() {
    // 16,777,222 bytes.
    let text = "reference 0 0 0 0 0\n".repeat(2_396_746);
    good(&text, &[1, 0, 0, 0, 0, 0, 0].repeat(2_396_746));
}

#[test]
fn a_line_is_at_most_4_095_bytes_long() {
    let blanks = |count| " ".repeat(count);
    // `init` is 4 bytes.
    good(&format!("init{}\ninit\n", blanks(4091)), &[7, 7]);
    let text = format!("init\ninit{}\ninit\n", blanks(4092));
    bad(&text, &[7], 2, Expected::End);
    good(&blanks(4095), &[]);
    bad(&blanks(4096), &[], 1, Expected::End);
    good(&format!("#{}", "x".repeat(4094)), &[]);
    bad(&format!("#{}", "x".repeat(4095)), &[], 1, Expected::End);
    // A word that does not fit says what was expected, however long its line.
    bad(&format!("x{}", blanks(4095)), &[], 1, Expected::Name);
    bad(&format!("read{}", blanks(4095)), &[], 1, Expected::Address);
}
