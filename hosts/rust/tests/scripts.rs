//! The scripts of `signs/`, by the crate.

mod common;

use latsefur::{ActivationCode, Controller, DefaultField, EndCode, Error, Memory};
use std::fmt::Display;

/// A number of a script, within its range.
fn number(word: &str, most: u64) -> Option<u64> {
    let is_number = (1..=10).contains(&word.len()) && word.bytes().all(|octet| octet.is_ascii_digit());
    is_number.then(|| word.parse().ok())?.filter(|&value| value <= most)
}

/// Octets in hexadecimal.
fn octets(word: &str) -> Option<Vec<u8>> {
    let digits: Vec<u8> = word.chars().map(|digit| Some(digit.to_digit(16)? as u8)).collect::<Option<_>>()?;
    let pairs = digits.chunks_exact(2);
    pairs.remainder().is_empty().then(|| pairs.map(|pair| pair[0] * 16 + pair[1]).collect())
}

fn hexadecimal(octets: &[u8]) -> String {
    if octets.is_empty() {
        return "-".into();
    }
    octets.iter().map(|octet| format!("{octet:02x}")).collect()
}

fn field(name: &str) -> Option<DefaultField> {
    let names = ["font", "line", "page", "page_on", "page_off", "flash_on", "flash_off", "fore", "back"];
    Some((names.iter().position(|&known| known == name)? as u8 + 1).into())
}

fn told<T: Display, E>(reply: Result<T, E>) -> Option<String> {
    reply.ok().map(|reply| reply.to_string())
}

fn row(held: &Controller, memory: Memory, of: u16) -> Option<String> {
    Some(match held.message(memory, of) {
        Err(Error::Refused(why)) => format!("refused {}", why.number()),
        Err(_) => return None,
        Ok(m) => {
            let memory = memory.number();
            let (status, owner, text) = (m.status.number(), hexadecimal(&m.owner), hexadecimal(&m.text));
            format!("row {memory} {of} {status} {} {} {} {:04x} {owner} {text}", m.priority, m.beacon, m.pixel_service, m.crc)
        }
    })
}

fn report(held: &Controller) -> Option<String> {
    let r = held.report().ok()?;
    let (mode, activate, validate, multi) = (r.mode.number(), r.activate.number(), r.validate.number(), r.multi.number());
    Some(format!(
        "report used={} free={} mode={mode} shown={}/{} crc={:04x} priority={} remaining={} requester={:08x} activate={activate} \
         validate={validate} multi={multi} position={} clock={}",
        r.used, r.free, r.shown_memory.number(), r.shown_number, r.crc, r.priority, r.remaining, r.requester, r.position, r.clock
    ))
}

fn frame(held: &Controller, colour: u8) -> Option<String> {
    let frame = held.frame(colour).ok()?;
    Some(format!("{}\n{}", frame.shown.map_or("off".to_string(), |shown| shown.to_string()), frame.plane))
}

fn defaults(held: &Controller) -> Option<String> {
    let d = held.defaults().ok()?;
    let all = [d.font, d.line, d.page, d.page_on, d.page_off, d.flash_on, d.flash_off, d.fore, d.back];
    Some(all.iter().fold("defaults".to_string(), |line, value| format!("{line} {value}")))
}

/// The reply to a line of a script, if it is one.
fn answer(held: &mut Controller, line: &str) -> Option<String> {
    let words: Vec<&str> = line.split(' ').collect();
    let place = |words: &[&str]| Some((Memory::from(number(words[1], 255)? as u8), number(words[2], 65535)? as u16));
    match (words[0], words.len()) {
        ("request" | "priority" | "beacon" | "pixel", 4) => {
            let ((memory, of), value) = (place(&words)?, number(words[3], 255)? as u8);
            told(match words[0] {
                "request" => held.request(memory, of, value.into()),
                "priority" => held.set_priority(memory, of, value),
                "beacon" => held.set_beacon(memory, of, value),
                _ => held.set_pixel_service(memory, of, value),
            })
        }
        ("multi" | "multix" | "owner", 3..) => {
            let ((memory, of), text) = (place(&words)?, words[3..].join(" "));
            told(match words[0] {
                "multi" => held.set_multi(memory, of, text),
                "multix" => held.set_multi(memory, of, octets(&text)?),
                _ => held.set_owner(memory, of, octets(&text)?),
            })
        }
        ("clear", 1) => told(held.clear()),
        ("work", 1) => told(held.work()),
        ("activate", 2) => told(held.activate(ActivationCode::try_from(&octets(words[1])?[..]).ok()?)),
        ("end", 2) => told(held.set_end(EndCode::try_from(&octets(words[1])?[..]).ok()?)),
        ("tick", 2) => told(held.tick(number(words[1], u64::from(u32::MAX))? as u32)),
        ("default", 3) => told(held.set_default(field(words[1])?, number(words[2], 255)? as u8)),
        ("row", 3) => place(&words).and_then(|(memory, of)| row(held, memory, of)),
        ("frame", 2) => frame(held, number(words[1], 255)? as u8),
        ("report", 1) => report(held),
        ("defaults", 1) => defaults(held),
        _ => None,
    }
}

#[test]
fn scripts_have_their_replies() {
    for table in common::files("scripts") {
        let scripts = common::scripts(&table);
        assert!(!scripts.is_empty());
        for script in scripts {
            let mut held = Controller::new(&common::sign_with(&table, &script.change)).unwrap();
            for (line, wanted) in &script.lines {
                let passed_over = line.is_empty() || line.starts_with('#');
                let got = if passed_over { None } else { Some(answer(&mut held, line).unwrap_or("bad line".into())) };
                let wanted = (!wanted.is_empty()).then(|| wanted.join("\n"));
                assert_eq!(got, wanted, "{}: {line}", script.name);
            }
        }
    }
}
