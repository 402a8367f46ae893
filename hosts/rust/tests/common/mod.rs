//! The tables of `signs/`, as its README says that they are written.
#![allow(dead_code)]

use std::collections::HashMap;
use std::fs;
use std::path::{Path, PathBuf};

pub fn signs() -> PathBuf {
    Path::new(env!("CARGO_MANIFEST_DIR")).join("../../signs")
}

/// The files of `signs/` with this ending.
pub fn files(ending: &str) -> Vec<PathBuf> {
    let all = fs::read_dir(signs()).unwrap().map(|entry| entry.unwrap().path());
    let mut those: Vec<PathBuf> = all.filter(|path| path.extension().is_some_and(|known| known == ending)).collect();
    those.sort();
    assert!(!those.is_empty());
    those
}

/// The sign beside a table, some of whose keys, or one piece of whose text, may be changed.
pub fn sign_with(table: &Path, change: &str) -> latsefur::Sign {
    let mut sign = fs::read_to_string(table.with_extension("toml")).unwrap();
    if let Some((old, new)) = change.split_once(" -> ") {
        assert_eq!(sign.matches(old).count(), 1, "{change}");
        sign = sign.replace(old, new);
    } else if !change.is_empty() {
        for piece in change.split(" and ") {
            let key = piece.split(" = ").next().unwrap();
            let changed = |line: &str| if line.starts_with(&format!("{key} = ")) { piece.to_string() } else { line.to_string() };
            sign = sign.lines().map(changed).collect::<Vec<_>>().join("\n") + "\n";
            assert!(sign.contains(&format!("{piece}\n")), "{change}");
        }
    }
    latsefur::Sign::new(sign).unwrap()
}

/// A string, how it is asked for, and the lines of its answer.
#[derive(Clone)]
pub struct Example {
    pub place: String,
    pub change: String,
    pub colour: u8,
    pub clock: u64,
    pub string: String,
    pub answer: Vec<String>,
}

fn is_answer(word: &str) -> bool {
    word == "off" || ["ok ", "error ", "page "].iter().any(|begin| word.starts_with(begin))
}

fn is_pixels(line: &str) -> bool {
    line.strip_prefix("    ").is_some_and(|row| row.chars().all(|sign| sign == '.' || sign == '#'))
}

fn example(place: String, change: &str, line: &str) -> Option<Example> {
    let (asked, answer) = line.rsplit_once(" => ").filter(|(_, answer)| is_answer(answer))?;
    let (mut rest, mut colour, mut clock) = (asked, 1, 0);
    loop {
        if let Some((number, behind)) = rest.strip_prefix("--colour ").and_then(|behind| behind.split_once(' ')) {
            (colour, rest) = (number.parse().unwrap(), behind);
        } else if let Some((number, behind)) = rest.strip_prefix("--clock ").and_then(|behind| behind.split_once(' ')) {
            (clock, rest) = (number.parse().unwrap(), behind);
        } else {
            break;
        }
    }
    let string = match rest.split_once(" times ") {
        Some((count, piece)) if count.parse::<usize>().is_ok() => piece.repeat(count.parse().unwrap()),
        _ if rest == "(empty)" => String::new(),
        _ => rest.to_string(),
    };
    Some(Example { place, change: change.to_string(), colour, clock, string, answer: vec![answer.to_string()] })
}

pub fn examples(table: &Path) -> Vec<Example> {
    let (mut change, mut all, mut framed, mut drawn) = (String::new(), Vec::<Example>::new(), Vec::new(), false);
    for (number, line) in fs::read_to_string(table).unwrap().lines().enumerate() {
        if is_pixels(line) && !framed.is_empty() {
            drawn = true;
            framed.iter().for_each(|&at: &usize| all[at].answer.push(line[4..].to_string()));
        } else if let Some(known) = example(format!("{}:{}", table.display(), number + 1), &change, line) {
            if drawn {
                (framed, drawn) = (Vec::new(), false);
            }
            if known.answer[0].starts_with("page") || known.answer[0] == "off" {
                framed.push(all.len());
            }
            all.push(known);
        } else if let Some(told) = line.strip_prefix("with ") {
            change = told.to_string();
        }
    }
    all
}

/// A script: its name, the change of its sign, and its lines with the lines of their replies.
pub struct Script {
    pub name: String,
    pub change: String,
    pub lines: Vec<(String, Vec<String>)>,
}

pub fn scripts(table: &Path) -> Vec<Script> {
    let (mut change, mut all, mut known) = (String::new(), Vec::<Script>::new(), HashMap::new());
    for line in fs::read_to_string(table).unwrap().lines() {
        if let Some(words) = line.strip_prefix("script ") {
            let (name, before) = words.split_once(" after ").unwrap_or((words, ""));
            let lines = known.get(before).map_or(Vec::new(), |&at: &usize| all[at].lines.clone());
            known.insert(name, all.len());
            all.push(Script { name: name.to_string(), change: change.clone(), lines });
        } else if let Some(told) = line.strip_prefix("with ") {
            change = told.to_string();
        } else if let (true, Some(script)) = (is_pixels(line), all.last_mut()) {
            script.lines.last_mut().unwrap().1.push(line[4..].to_string());
        } else if let (Some((asked, reply)), Some(script)) = (line.rsplit_once(" =>"), all.last_mut()) {
            let asked = if asked == "(empty)" { "" } else { asked };
            let reply = reply.strip_prefix(' ').map(str::to_string);
            script.lines.push((asked.to_string(), reply.into_iter().collect()));
        }
    }
    all
}
