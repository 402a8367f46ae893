//! What the tables of `signs/` don't ask: errors by name, threads, and many texts.

mod common;

use latsefur::{
    message_crc, ActivateError, ActivationCode, Controller, DefaultError, DefaultField, EndCode, Error, Font, Memory, MultiError, Reply, Request,
    Sign, SourceMode, StateFault, Table, TableError, ValidateError, Verdict,
};
use std::error::Error as _;
use std::fs;

fn sample() -> String {
    fs::read_to_string(common::signs().join("sample.toml")).unwrap()
}

/// Stores a text as message 1 of the changeable ones, and has it judged.
fn store(held: &mut Controller, text: impl AsRef<[u8]>) -> Result<Reply, Error> {
    held.request(Memory::Changeable, 1, Request::Modify)?.obeyed()?;
    held.set_multi(Memory::Changeable, 1, text)?.obeyed()?;
    held.request(Memory::Changeable, 1, Request::Validate)?.obeyed()?;
    held.work()
}

fn a_code(crc: u16) -> ActivationCode {
    ActivationCode { duration: 1, priority: 255, memory: Memory::Changeable, number: 1, crc, requester: [127, 0, 0, 1] }
}

#[test]
fn refusals_are_errors_for_who_asks() {
    let mut held = Controller::new(&Sign::new(sample()).unwrap()).unwrap();
    assert!(matches!(held.set_multi(Memory::Changeable, 1, "A").unwrap().obeyed(), Err(Error::Refused(TableError::WrongState))));
    assert!(matches!(held.activate(a_code(0)).unwrap().obeyed(), Err(Error::NotShown(ActivateError::MessageStatus))));
    assert!(matches!(held.set_default(DefaultField::Font, 9).unwrap().obeyed(), Err(Error::NotSet(DefaultError::NoFont))));
    assert!(matches!(held.message(Memory::Changeable, 2), Err(Error::Refused(TableError::Number))));
    assert_eq!(store(&mut held, "A").unwrap().to_string(), "worked 1 4 2 2 0");
    assert!(held.tick(1).unwrap().obeyed().is_ok());
    let fault: Box<dyn std::error::Error> = held.message(Memory::Unlisted(99), 1).unwrap_err().into();
    assert_eq!(fault.to_string(), "the message table refuses the command: there is no such memory type");
    assert_eq!(fault.source().unwrap().to_string(), "there is no such memory type");
}

#[test]
fn numbers_that_say_what_is_wrong_are_errors() {
    let all: [Box<dyn std::error::Error + Send + Sync>; 6] = [
        Box::new(MultiError::TextTooBig),
        Box::new(ValidateError::SyntaxMulti),
        Box::new(ActivateError::Priority),
        Box::new(TableError::NoSpace),
        Box::new(DefaultError::NoFont),
        Box::new(TableError::Unlisted(99)),
    ];
    let told: Vec<String> = all.iter().map(|fault| fault.to_string()).collect();
    assert_eq!((told[0].as_str(), told[3].as_str()), ("the text is too big for the sign", "the table has no room left for it"));
    assert_eq!(told[5], "the number 99, which has no name");
    for number in 1..=13 {
        let (multi, table, state) = (MultiError::from(number), TableError::from(number), StateFault::from(number));
        let (activate, validate, default) = (ActivateError::from(number), ValidateError::from(number), DefaultError::from(number));
        let sentences = [multi.sentence(), table.sentence(), state.sentence(), activate.sentence(), validate.sentence(), default.sentence()];
        let words = [multi.to_string(), table.to_string(), state.to_string(), activate.to_string(), validate.to_string(), default.to_string()];
        for (sentence, words) in sentences.into_iter().zip(words) {
            assert_eq!(sentence.unwrap_or_else(|| format!("the number {number}, which has no name")), words);
        }
    }
}

#[test]
fn a_state_is_restored() {
    let sign = Sign::new(sample()).unwrap();
    let (mut held, mut other) = (Controller::new(&sign).unwrap(), Controller::new(&sign).unwrap());
    store(&mut held, "A").unwrap().obeyed().unwrap();
    let crc = held.message(Memory::Changeable, 1).unwrap().crc;
    held.activate(a_code(crc)).unwrap().obeyed().unwrap();
    held.set_end(EndCode { memory: Memory::Permanent, number: 1, crc: 7 }).unwrap().obeyed().unwrap();
    held.tick(37).unwrap().obeyed().unwrap();
    let (saved, revision) = (held.save().unwrap(), held.revision().unwrap());
    other.restore(&saved).unwrap();
    assert_eq!(other.end().unwrap(), EndCode { memory: Memory::Permanent, number: 1, crc: 7 });
    for tenths in [1, 500, 100] {
        assert_eq!(other.tick(tenths).unwrap(), held.tick(tenths).unwrap());
        assert_eq!(other.report().unwrap(), held.report().unwrap());
    }
    held.restore(&saved).unwrap();
    assert!(held.revision().unwrap() > revision);
    assert_eq!(held.save().unwrap(), saved);
    let fault = held.restore(&saved[..saved.len() - 1]).unwrap_err();
    assert!(matches!(fault, Error::NotRestored(StateFault::Length)));
    assert_eq!(fault.to_string(), "the saved octets aren't taken: there are fewer or more octets than there should be");
    assert_eq!(held.save().unwrap(), saved);
}

#[test]
fn questions_share_a_controller() {
    let mut held = Controller::new(&Sign::new(sample()).unwrap()).unwrap();
    store(&mut held, "A").unwrap().obeyed().unwrap();
    held.activate(a_code(message_crc("A", 0, 0))).unwrap().obeyed().unwrap();
    let (first, second) = (&held, &held);
    assert_eq!(first.report().unwrap(), second.report().unwrap());
    assert_eq!(first.report().unwrap().shown_memory, Memory::Changeable);
    assert_eq!(first.frame(1).unwrap(), second.frame(1).unwrap());
    assert_eq!(first.message(Memory::CurrentBuffer, 1).unwrap().text, second.message(Memory::Changeable, 1).unwrap().text);
    assert_eq!((first.table().unwrap().slots, first.font(1).unwrap().number, first.defaults().unwrap().page_on), (1, 1, 30));
    assert_eq!((first.next_change(9).unwrap(), first.check("A").unwrap().is_accepted(), first.steps().is_ok()), (9, true, true));
    assert_eq!(first.colours().unwrap().picture, first.colours_of_page("A", 0, 0).unwrap());
    assert_eq!(first.frame(1).unwrap().plane, first.plane_of_page("A", 0, 1, 0).unwrap());
}

#[test]
fn octets_are_taken_in_each_form() {
    let (sign, text) = (Sign::new(sample().as_bytes()).unwrap(), "A[np]I");
    let told = sign.check(text).unwrap();
    assert_eq!([sign.check(text.as_bytes()).unwrap(), sign.check(String::from(text)).unwrap(), sign.check(b"A[np]I").unwrap()], [told; 3]);
    assert_eq!(sign.check(vec![b'A']).unwrap(), sign.check("A").unwrap());
    assert_eq!((sign.shown(text, 30).unwrap(), sign.pages(text).unwrap().len()), (sign.shown(b"A[np]I", 30).unwrap(), 2));
    assert_eq!(sign.plane(text, 1, 30).unwrap(), sign.plane_of_page(String::from(text), 1, 1, 0).unwrap());
    assert_eq!(sign.colours(text, 30).unwrap(), sign.colours_of_page(text, 1, 0).unwrap());
    assert_eq!(message_crc(vec![b'A'], 0, 0), message_crc("A", 0, 0));
    let mut held = Controller::new(&sign).unwrap();
    held.request(Memory::Changeable, 1, Request::Modify).unwrap().obeyed().unwrap();
    held.set_owner(Memory::Changeable, 1, "me").unwrap().obeyed().unwrap();
    assert_eq!(held.set_owner(Memory::Changeable, 1, vec![b'm'; 3]).unwrap(), Reply::Done);
}

#[test]
fn codes_are_types_and_octets() {
    let code = ActivationCode { duration: 0x0102, number: 0x0304, requester: [7, 8, 9, 10], ..a_code(0x0506) };
    let octets = [1, 2, 255, 3, 3, 4, 5, 6, 7, 8, 9, 10];
    assert_eq!((code.octets(), ActivationCode::from(octets)), (octets, code));
    let end = EndCode { memory: Memory::Unlisted(4), number: 0x0102, crc: 0x0304 };
    assert_eq!((end.octets(), EndCode::from([4, 1, 2, 3, 4])), ([4, 1, 2, 3, 4], end));
    for length in (0..20).filter(|&length| length != 12) {
        assert!(matches!(ActivationCode::try_from(&[0; 20][..length]), Err(Error::BadLength)));
        assert!(matches!(EndCode::try_from(&[0; 20][..length]), Err(Error::BadLength)) || length == 5);
    }
    let mut held = Controller::new(&Sign::new(sample()).unwrap()).unwrap();
    store(&mut held, "A").unwrap().obeyed().unwrap();
    assert_eq!(held.set_end(EndCode { memory: Memory::Permanent, number: 1, crc: 0 }).unwrap(), Reply::Done);
    assert_eq!(held.set_end(EndCode { memory: Memory::Changeable, number: 1, crc: message_crc("A", 0, 0) }).unwrap(), Reply::Done);
    let blank = ActivationCode { memory: Memory::Blank, crc: 0, ..a_code(0) };
    assert_eq!(held.activate(blank).unwrap(), Reply::Shown);
    assert_eq!(held.tick(600).unwrap(), Reply::Ended);
    let report = held.report().unwrap();
    assert_eq!((report.shown_memory, report.shown_number, report.mode), (Memory::Changeable, 1, SourceMode::EndDuration));
}

#[test]
fn errors_have_names() {
    let sign = Sign::new(sample()).unwrap();
    assert!(matches!(Sign::new(""), Err(Error::NoSignFile)));
    assert!(matches!(Sign::new(sample().replace("height = 7", "height = 0")), Err(Error::SignFault)));
    assert!(matches!(sign.colours(b"B", 0), Err(Error::TextRefused)));
    assert!(matches!(sign.pages(b"B"), Err(Error::TextRefused)));
    assert!(matches!(sign.colours_of_page(b"A", 1, 0), Err(Error::NoPage)));
    let unsound = Sign::new(sample().replace("slots = 1", "slots = 0")).unwrap();
    assert!(matches!(Controller::new(&unsound), Err(Error::TableFault)));
    let mut held = Controller::new(&sign).unwrap();
    assert!(matches!(held.set_default(DefaultField::Unlisted(0), 1), Err(Error::NoDefault)));
    let fault = Sign::from_file("nowhere").unwrap_err();
    assert!(fault.source().is_some() && fault.to_string().starts_with("the file can't be read"));
}

#[test]
fn verdicts_are_values() {
    let sign = Sign::new(sample()).unwrap();
    assert_eq!(sign.check(b"A[np]I").unwrap(), Verdict::Accepted { pages: 2, cycle: 60 });
    assert_eq!(sign.check(b"AAAA").unwrap(), Verdict::Refused { error: MultiError::TextTooBig, at: 3 });
    assert!(sign.check_all::<&[u8]>(&[]).unwrap().is_empty());
    let pages = sign.pages(b"A[np]I").unwrap();
    assert_eq!((pages.len(), &pages[1]), (2, &sign.colours(b"A[np]I", 30).unwrap()));
    assert_eq!((pages[0].colour(7, 0), pages[0].colour(0, 12), pages[0].colour(3, 5)), (None, None, Some(1)));
    assert_eq!(pages[1].to_string().lines().nth(2), Some("000001000000"));
}

#[test]
fn threads_share_a_sign() {
    let sign = Sign::new(sample()).unwrap();
    std::thread::scope(|scope| {
        for _ in 0..4 {
            scope.spawn(|| assert!(sign.check(b"A").unwrap().is_accepted()));
        }
    });
}

#[test]
fn a_controller_goes_to_another_thread() {
    let mut held = Controller::new(&Sign::new(sample()).unwrap()).unwrap();
    assert_eq!(held.request(Memory::Changeable, 1, Request::Modify).unwrap(), Reply::Done);
    let held = std::thread::spawn(move || {
        held.set_multi(Memory::Changeable, 1, "A").unwrap().obeyed().unwrap();
        held
    })
    .join()
    .unwrap();
    assert_eq!(held.message(Memory::Changeable, 1).unwrap().crc, message_crc(b"A", 0, 0));
    assert!(held.steps().is_ok());
}

#[test]
fn a_controller_tells_what_it_holds() {
    let sign = Sign::new(sample()).unwrap();
    let mut held = Controller::new(&sign).unwrap();
    assert_eq!(held.table().unwrap(), Table { bytes: 4, slots: 1, max_string: 64, permanents: 1 });
    assert_eq!(held.font(1).unwrap(), Font { version: 6699, number: 1, height: 3, char_spacing: 1, line_spacing: 1 });
    assert!(matches!(held.font(9), Err(Error::NoFont)));
    held.set_default(DefaultField::PageOn, 10).unwrap().obeyed().unwrap();
    assert_eq!(held.check(b"A[np]I").unwrap(), Verdict::Accepted { pages: 2, cycle: 20 });
    assert!(!held.check(b"B").unwrap().is_accepted());
    assert_eq!(held.colours_of_page(b"A[np]I", 1, 0).unwrap(), sign.colours(b"A[np]I", 30).unwrap());
    assert_eq!(held.plane_of_page(b"A[np]I", 1, 1, 0).unwrap(), sign.plane(b"A[np]I", 1, 30).unwrap());
    assert!(matches!(held.plane_of_page(b"A", 1, 1, 0), Err(Error::NoPage)));
    store(&mut held, "A").unwrap().obeyed().unwrap();
    assert_eq!(held.activate(a_code(message_crc("A", 0, 0))).unwrap(), Reply::Shown);
    assert_eq!(held.colours().unwrap().picture, sign.colours(b"A", 0).unwrap());
    assert_eq!((held.next_change(u32::MAX).unwrap(), held.next_change(7).unwrap()), (600, 7));
}

#[test]
fn the_library_has_the_version_of_the_header() {
    let header = fs::read_to_string(common::signs().join("../hosts/latsefur.h")).unwrap();
    assert!(header.contains(&format!("#define LATSEFUR_VERSION {}\n", latsefur::library_version())));
}
