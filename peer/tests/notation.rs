//! NOTATION.md's meaning of one line: names, blanks, comments, fields.

use peer::{read_line, Event, Expected, Line};

#[track_caller]
fn event(line: &str, event: Event) {
    assert_eq!(read_line(line.as_bytes()), Line::Event(event), "{line:?}");
}

#[track_caller]
fn byte(line: &str, byte: u8) {
    assert_eq!(read_line(line.as_bytes()), Line::Byte(byte), "{line:?}");
}

#[track_caller]
fn blank(line: &str) {
    assert_eq!(read_line(line.as_bytes()), Line::Blank, "{line:?}");
}

#[track_caller]
fn bad(line: &str, expected: Expected) {
    assert_eq!(read_line(line.as_bytes()), Line::Bad(expected), "{line:?}");
}

fn reference(mode: u32, space: u32, access: u32, phase: u32, va: u16) -> Event {
    Event::Reference {
        mode,
        space,
        access,
        phase,
        va,
    }
}

fn read(address: u32) -> Event {
    Event::Read { address }
}

fn write(address: u32, value: u16) -> Event {
    Event::Write { address, value }
}

#[test]
fn each_name_has_its_meaning() {
    let line = "reference user data write trap 167456";
    event(line, reference(3, 1, 1, 1, 0o167456));
    event("read 777572", read(0o777572));
    event("write 772356 3456", write(0o772356, 0o3456));
    event("instruction 1234", Event::Instruction { va: 0o1234 });
    event("interrupt 250", Event::Interrupt { vector: 0o250 });
    let (register, amount) = (6, -2);
    event("change 6 -2", Event::Change { register, amount });
    event("init", Event::Init);
    byte("byte 377", 255);
}

#[test]
fn each_word_of_a_reference_stands_for_its_number() {
    for (mode, word) in (0..).zip(["kernel", "supervisor", "illegal", "user"]) {
        let line = format!("reference {word} instruction read instruction 0");
        event(&line, reference(mode, 0, 0, 0, 0));
    }
    for (space, word) in [(0, "instruction"), (1, "data")] {
        let line = format!("reference kernel {word} read instruction 0");
        event(&line, reference(0, space, 0, 0, 0));
    }
    for (access, word) in [(0, "read"), (1, "write")] {
        let line = format!("reference kernel instruction {word} instruction 0");
        event(&line, reference(0, 0, access, 0, 0));
    }
    for (phase, word) in [(0, "instruction"), (1, "trap")] {
        let line = format!("reference kernel instruction read {word} 0");
        event(&line, reference(0, 0, 0, phase, 0));
    }
}

#[test]
fn a_number_may_stand_in_place_of_any_word() {
    event("reference 0 0 0 0 0", reference(0, 0, 0, 0, 0));
    event("reference 3 1 1 1 0", reference(3, 1, 1, 1, 0));
    event("reference 4 data 2 trap 0", reference(4, 1, 2, 1, 0));
    event("reference user 2 read 10 0", reference(3, 2, 0, 8, 0));
    // But not of a name.
    bad("1 0 0 0 0 0", Expected::Name);
    bad("7", Expected::Name);
}

#[test]
fn a_word_serves_its_own_field_only() {
    bad("reference data data read trap 0", Expected::Mode);
    bad("reference kernel kernel read trap 0", Expected::Space);
    bad("reference kernel trap read trap 0", Expected::Space);
    bad("reference kernel data data trap 0", Expected::Access);
    bad("reference kernel data instruction trap 0", Expected::Access);
    bad("reference kernel data read data 0", Expected::Phase);
    bad("reference kernel data read interrupt 0", Expected::Phase);
    bad("reference kernel data read trap kernel", Expected::Va);
    bad("change kernel 1", Expected::Register);
}

#[test]
fn words_are_small_letters_exactly() {
    for line in ["Init", "INIT", "inits", "ini", "in it", "READ 0", "byt 0"] {
        bad(line, Expected::Name);
    }
    for line in [
        "references",
        "refer",
        "noted",
        "-",
        "+",
        "init;",
        "\"init\"",
    ] {
        bad(line, Expected::Name);
    }
    bad("reference Kernel data read trap 0", Expected::Mode);
    bad("reference kern data read trap 0", Expected::Mode);
    bad("reference kernels data read trap 0", Expected::Mode);
    bad("reference kernel DATA read trap 0", Expected::Space);
    bad("reference kernel data Read trap 0", Expected::Access);
    bad("reference kernel data read Trap 0", Expected::Phase);
}

#[test]
fn words_are_parted_by_blanks() {
    event("write\t772356\t3456", write(0o772356, 0o3456));
    event("write\r772356\r3456", write(0o772356, 0o3456));
    event(
        "  write \t\r 772356  \r\t3456 \t\r",
        write(0o772356, 0o3456),
    );
    event("init\r", Event::Init);
    event("\r\t init", Event::Init);
    // No other byte is a blank.
    for line in ["\u{b}init", "init\u{c}", "init\0", "\u{a0}init", "init,"] {
        bad(line, Expected::Name);
    }
    bad("read\u{b}0", Expected::Name);
    bad("read 0\u{c}", Expected::Address);
    assert_eq!(read_line(b"\xFF"), Line::Bad(Expected::Name));
    assert_eq!(read_line(b"byte \xFF"), Line::Bad(Expected::Byte));
}

#[test]
fn a_line_without_a_word_is_blank() {
    for line in [
        "",
        " ",
        "\t",
        "\r",
        " \t\r \t\r",
        "#",
        "# init",
        " \t#x",
        "##",
    ] {
        blank(line);
    }
}

#[test]
fn a_comment_goes_to_the_end_of_its_line() {
    event("init # the bus", Event::Init);
    event("init#", Event::Init);
    event("init#x # y", Event::Init);
    event("read 777572#SR0", read(0o777572));
    byte("byte 1#2", 1);
    blank("#init");
    assert_eq!(read_line(b"init # \xFF\0"), Line::Event(Event::Init));
    // What stands in a comment is not there.
    bad("read # 777572", Expected::Address);
    bad("in#it", Expected::Name);
    bad("reference kernel data # read trap 0", Expected::Access);
}

#[test]
fn a_missing_field_is_expected() {
    bad("reference", Expected::Mode);
    bad("reference kernel", Expected::Space);
    bad("reference kernel data", Expected::Access);
    bad("reference kernel data read", Expected::Phase);
    bad("reference kernel data read trap", Expected::Va);
    // A phase may be a number, so here it is the address that is missing.
    bad("reference kernel data read 0", Expected::Va);
    bad("read", Expected::Address);
    bad("write", Expected::Address);
    bad("write 777572", Expected::Value);
    bad("instruction", Expected::Va);
    bad("interrupt", Expected::Vector);
    bad("change", Expected::Register);
    bad("change 6", Expected::Amount);
    bad("byte", Expected::Byte);
    bad("read \t\r", Expected::Address);
}

#[test]
fn a_word_after_the_last_field_should_be_the_end() {
    bad("reference kernel data read trap 0 0", Expected::End);
    bad("read 0 0", Expected::End);
    bad("write 0 0 0", Expected::End);
    bad("instruction 0 x", Expected::End);
    bad("interrupt 0 0", Expected::End);
    bad("change 0 1 1", Expected::End);
    bad("init init", Expected::End);
    bad("init 0", Expected::End);
    bad("byte 0 0", Expected::End);
}

#[test]
fn the_first_word_that_does_not_fit_decides() {
    bad("refer x x", Expected::Name);
    bad("reference x x x x x x", Expected::Mode);
    bad("reference 0 x x x x x", Expected::Space);
    bad("reference 0 0 x x x x", Expected::Access);
    bad("reference 0 0 0 x x x", Expected::Phase);
    bad("reference 0 0 0 0 x x", Expected::Va);
    bad("write x x x", Expected::Address);
    bad("write 0 x x", Expected::Value);
    bad("change x x x", Expected::Register);
    bad("change 0 x x", Expected::Amount);
    bad("byte x x", Expected::Byte);
}

#[test]
fn a_line_of_any_length_is_read() {
    event(&format!("init{}", " ".repeat(10_000)), Event::Init);
    event(&format!("init #{}", "x".repeat(10_000)), Event::Init);
    blank(&"\t".repeat(10_000));
}
