//! Drives the controller of a sign by a script: a host in Rust that holds a controller.
//!
//! ```text
//! control SIGN_FILE
//! ```
//!
//! A script is lines on standard input, as docs/formats.md describes them, and each has the reply that `signctl run` writes. The status is 1
//! after a line that is none of a script, 2 if there is no controller, and 3 if two answers of the library don't agree.
//!
//! Time passes as for a display driver that sleeps until what is shown may change.

use latsefur::{Controller, Reply};
use std::io::{self, BufRead, BufWriter, Write};
use std::process::exit;

/// A controller behind a type that keeps what `hosts/latsefur.h` asks of a host: the handle is zeros at first, is borrowed by one call at a time, has
/// no copy, and is freed in the end. It isn't `Sync`, and it may go to another thread.
mod latsefur {
    use std::ffi::c_void;
    use std::ptr::null_mut;

    #[repr(C)]
    #[derive(Clone, Copy, Debug, Default)]
    pub struct Reply {
        pub kind: u8,
        pub code: u8,
        pub status: u8,
        pub validate_error: u8,
        pub multi_error: u8,
        pub number: u16,
        pub multi_position: u16,
    }

    #[repr(C)]
    #[derive(Clone, Copy, Debug, Default)]
    pub struct Report {
        pub clock: u64,
        pub free: u32,
        pub requester: u32,
        pub used: u16,
        pub shown_number: u16,
        pub crc: u16,
        pub remaining: u16,
        pub position: u16,
        pub mode: u8,
        pub shown_memory: u8,
        pub priority: u8,
        pub activate: u8,
        pub validate: u8,
        pub multi: u8,
    }

    #[repr(C)]
    #[derive(Clone, Copy, Debug, Default)]
    pub struct Row {
        pub multi: usize,
        pub owner: usize,
        pub crc: u16,
        pub code: u8,
        pub status: u8,
        pub priority: u8,
        pub beacon: u8,
        pub pixel: u8,
    }

    #[repr(C)]
    #[derive(Clone, Copy, Debug, Default)]
    pub struct Verdict {
        pub at: usize,
        pub cycle: u32,
        pub outcome: u8,
        pub code: u8,
        pub pages: u8,
    }

    #[repr(C)]
    #[derive(Clone, Copy, Debug, Default, PartialEq)]
    pub struct Shown {
        pub phase: u64,
        pub page: u8,
        pub is_on: u8,
    }

    #[repr(C)]
    #[derive(Clone, Copy, Debug, Default)]
    pub struct Facts {
        pub width: u16,
        pub height: u16,
        pub max_pages: u8,
        pub classic: u8,
    }

    #[repr(C)]
    struct Handle {
        held: *mut c_void,
        full: u8,
    }

    type Octets = *const u8;

    #[link(name = "latsefur", kind = "static")]
    extern "C" {
        fn latsefur_controller_new(sign_file: Octets, len: usize, handle: *mut Handle) -> u8;
        fn latsefur_controller_free(handle: *mut Handle);
        fn latsefur_request(handle: *mut Handle, memory: u8, number: u16, status: u8, reply: *mut Reply) -> u8;
        fn latsefur_set_priority(handle: *mut Handle, memory: u8, number: u16, value: u8, reply: *mut Reply) -> u8;
        fn latsefur_set_beacon(handle: *mut Handle, memory: u8, number: u16, value: u8, reply: *mut Reply) -> u8;
        fn latsefur_set_pixel_service(handle: *mut Handle, memory: u8, number: u16, value: u8, reply: *mut Reply) -> u8;
        fn latsefur_set_multi(handle: *mut Handle, memory: u8, number: u16, text: Octets, len: usize, reply: *mut Reply) -> u8;
        fn latsefur_set_owner(handle: *mut Handle, memory: u8, number: u16, owner: Octets, len: usize, reply: *mut Reply) -> u8;
        fn latsefur_clear(handle: *mut Handle, reply: *mut Reply) -> u8;
        fn latsefur_work(handle: *mut Handle, reply: *mut Reply) -> u8;
        fn latsefur_activate(handle: *mut Handle, code: Octets, len: usize, reply: *mut Reply) -> u8;
        fn latsefur_set_end(handle: *mut Handle, code: Octets, len: usize, reply: *mut Reply) -> u8;
        fn latsefur_tick(handle: *mut Handle, tenths: u32, reply: *mut Reply) -> u8;
        fn latsefur_set_default(handle: *mut Handle, field: u8, value: u8, reply: *mut Reply) -> u8;
        fn latsefur_report(handle: *mut Handle, report: *mut Report) -> u8;
        fn latsefur_defaults(handle: *mut Handle, defaults: *mut [u8; 9]) -> u8;
        fn latsefur_frame(handle: *mut Handle, colour: u8, shown: *mut Shown, plane: *mut u8, len: usize) -> u8;
        fn latsefur_colours(handle: *mut Handle, shown: *mut Shown, colours: *mut u8, len: usize) -> u8;
        fn latsefur_next_change(handle: *mut Handle, most: u32, tenths: *mut u32) -> u8;
        fn latsefur_held_sign(handle: *mut Handle, facts: *mut Facts) -> u8;
        fn latsefur_held_check(handle: *mut Handle, text: Octets, len: usize, verdict: *mut Verdict) -> u8;
        #[allow(clippy::too_many_arguments)]
        fn latsefur_held_plane_of_page(
            handle: *mut Handle,
            text: Octets,
            text_len: usize,
            page: u8,
            phase: u64,
            colour: u8,
            plane: *mut u8,
            len: usize,
        ) -> u8;
        fn latsefur_held_colours_of_page(
            handle: *mut Handle,
            text: Octets,
            text_len: usize,
            page: u8,
            phase: u64,
            colours: *mut u8,
            len: usize,
        ) -> u8;
        #[allow(clippy::too_many_arguments)]
        fn latsefur_row(
            handle: *mut Handle,
            memory: u8,
            number: u16,
            row: *mut Row,
            text: *mut u8,
            text_len: usize,
            owner: *mut u8,
            owner_len: usize,
        ) -> u8;
    }

    /// A value of a message that a command sets.
    #[derive(Clone, Copy)]
    pub enum Value {
        Request,
        Priority,
        Beacon,
        PixelService,
    }

    pub struct Controller {
        handle: Handle,
        pub facts: Facts,
    }

    // What the handle holds may go to another thread, and each call borrows it alone.
    unsafe impl Send for Controller {}

    impl Drop for Controller {
        fn drop(&mut self) {
            unsafe { latsefur_controller_free(&mut self.handle) }
        }
    }

    impl Controller {
        /// The controller of a sign file, or the outcome that says why there is none.
        pub fn new(sign_file: &[u8]) -> Result<Controller, u8> {
            let mut made = Controller {
                handle: Handle { held: null_mut(), full: 0 },
                facts: Facts::default(),
            };
            match unsafe { latsefur_controller_new(sign_file.as_ptr(), sign_file.len(), &mut made.handle) } {
                0 => {
                    unsafe { latsefur_held_sign(&mut made.handle, &mut made.facts) };
                    Ok(made)
                }
                outcome => Err(outcome),
            }
        }

        fn ask(&mut self, call: impl FnOnce(&mut Handle, &mut Reply) -> u8) -> Option<Reply> {
            let mut reply = Reply::default();
            (call(&mut self.handle, &mut reply) == 0).then_some(reply)
        }

        pub fn set(&mut self, what: Value, memory: u8, number: u16, value: u8) -> Option<Reply> {
            let call = match what {
                Value::Request => latsefur_request,
                Value::Priority => latsefur_set_priority,
                Value::Beacon => latsefur_set_beacon,
                Value::PixelService => latsefur_set_pixel_service,
            };
            self.ask(|handle, reply| unsafe { call(handle, memory, number, value, reply) })
        }

        pub fn set_multi(&mut self, memory: u8, number: u16, text: &[u8]) -> Option<Reply> {
            self.ask(|handle, reply| unsafe { latsefur_set_multi(handle, memory, number, text.as_ptr(), text.len(), reply) })
        }

        pub fn set_owner(&mut self, memory: u8, number: u16, owner: &[u8]) -> Option<Reply> {
            self.ask(|handle, reply| unsafe { latsefur_set_owner(handle, memory, number, owner.as_ptr(), owner.len(), reply) })
        }

        pub fn clear(&mut self) -> Option<Reply> {
            self.ask(|handle, reply| unsafe { latsefur_clear(handle, reply) })
        }

        pub fn work(&mut self) -> Option<Reply> {
            self.ask(|handle, reply| unsafe { latsefur_work(handle, reply) })
        }

        pub fn activate(&mut self, code: &[u8]) -> Option<Reply> {
            self.ask(|handle, reply| unsafe { latsefur_activate(handle, code.as_ptr(), code.len(), reply) })
        }

        pub fn set_end(&mut self, code: &[u8]) -> Option<Reply> {
            self.ask(|handle, reply| unsafe { latsefur_set_end(handle, code.as_ptr(), code.len(), reply) })
        }

        pub fn tick(&mut self, tenths: u32) -> Option<Reply> {
            self.ask(|handle, reply| unsafe { latsefur_tick(handle, tenths, reply) })
        }

        pub fn set_default(&mut self, field: u8, value: u8) -> Option<Reply> {
            self.ask(|handle, reply| unsafe { latsefur_set_default(handle, field, value, reply) })
        }

        pub fn report(&mut self) -> Report {
            let mut report = Report::default();
            unsafe { latsefur_report(&mut self.handle, &mut report) };
            report
        }

        pub fn defaults(&mut self) -> [u8; 9] {
            let mut defaults = [0; 9];
            unsafe { latsefur_defaults(&mut self.handle, &mut defaults) };
            defaults
        }

        /// A message with its text and its owner, or the number that says why there is none.
        pub fn row(&mut self, memory: u8, number: u16) -> Result<(Row, Vec<u8>, Vec<u8>), u8> {
            let (mut row, mut text, mut owner) = (Row::default(), vec![0; 4096], vec![0; 127]);
            let outcome = unsafe {
                latsefur_row(&mut self.handle, memory, number, &mut row, text.as_mut_ptr(), text.len(), owner.as_mut_ptr(), owner.len())
            };
            if outcome != 0 {
                return Err(row.code);
            }
            text.truncate(row.multi);
            owner.truncate(row.owner);
            Ok((row, text, owner))
        }

        /// What the display shows, and the plane of a colour of it.
        pub fn frame(&mut self, colour: u8) -> (Shown, Vec<u8>) {
            let mut shown = Shown::default();
            let mut plane = self.plane();
            unsafe { latsefur_frame(&mut self.handle, colour, &mut shown, plane.as_mut_ptr(), plane.len()) };
            (shown, plane)
        }

        fn plane(&self) -> Vec<u8> {
            vec![0; usize::from(self.facts.width).div_ceil(8) * usize::from(self.facts.height)]
        }

        /// What the display shows, and the colours of all its pixels.
        pub fn colours(&mut self) -> (Shown, Vec<u8>) {
            let mut shown = Shown::default();
            let mut colours = vec![0; usize::from(self.facts.width) * usize::from(self.facts.height)];
            unsafe { latsefur_colours(&mut self.handle, &mut shown, colours.as_mut_ptr(), colours.len()) };
            (shown, colours)
        }

        /// For how many tenths, at most this many, the display shows what it shows.
        pub fn next_change(&mut self, most: u32) -> u32 {
            let mut tenths = 0;
            unsafe { latsefur_next_change(&mut self.handle, most, &mut tenths) };
            tenths
        }

        /// The verdict on a text by the defaults in force.
        pub fn check(&mut self, text: &[u8]) -> Verdict {
            let mut verdict = Verdict::default();
            unsafe { latsefur_held_check(&mut self.handle, text.as_ptr(), text.len(), &mut verdict) };
            verdict
        }

        /// The plane of a colour of the first page of a text, or the outcome that says why there is none.
        pub fn first_plane(&mut self, text: &[u8], colour: u8) -> Result<Vec<u8>, u8> {
            let mut plane = self.plane();
            let outcome = unsafe {
                latsefur_held_plane_of_page(&mut self.handle, text.as_ptr(), text.len(), 0, 0, colour, plane.as_mut_ptr(), plane.len())
            };
            if outcome == 0 { Ok(plane) } else { Err(outcome) }
        }

        /// The colours of the first page of a text, or the outcome that says why there are none.
        pub fn first_colours(&mut self, text: &[u8]) -> Result<Vec<u8>, u8> {
            let mut colours = vec![0; usize::from(self.facts.width) * usize::from(self.facts.height)];
            let outcome = unsafe {
                latsefur_held_colours_of_page(&mut self.handle, text.as_ptr(), text.len(), 0, 0, colours.as_mut_ptr(), colours.len())
            };
            if outcome == 0 { Ok(colours) } else { Err(outcome) }
        }
    }
}

const FIELDS: [&[u8]; 9] = [b"font", b"line", b"page", b"page_on", b"page_off", b"flash_on", b"flash_off", b"fore", b"back"];

fn told(reply: Reply) -> String {
    match reply.kind {
        0 => "done".into(),
        2 => "idle".into(),
        3 => format!(
            "worked {} {} {} {} {}",
            reply.number, reply.status, reply.validate_error, reply.multi_error, reply.multi_position
        ),
        4 => "shown".into(),
        5 => format!("not shown {}", reply.code),
        7 => "ticked".into(),
        8 => "ended".into(),
        _ => format!("refused {}", reply.code),
    }
}

/// A number of a script, within its range.
fn number(word: &[u8], most: u64) -> Option<u64> {
    let is_number = (1..=10).contains(&word.len()) && word.iter().all(u8::is_ascii_digit);
    let value: u64 = is_number.then(|| std::str::from_utf8(word).ok()?.parse().ok())??;
    (value <= most).then_some(value)
}

/// Octets in hexadecimal.
fn octets(word: &[u8]) -> Option<Vec<u8>> {
    let digits: Vec<u8> = word.iter().map(|&digit| Some(char::from(digit).to_digit(16)? as u8)).collect::<Option<_>>()?;
    (digits.len() % 2 == 0).then(|| digits.chunks(2).map(|pair| pair[0] * 16 + pair[1]).collect())
}

fn hexadecimal(octets: &[u8]) -> String {
    if octets.is_empty() {
        return "-".into();
    }
    octets.iter().map(|octet| format!("{octet:02x}")).collect()
}

fn row(controller: &mut Controller, memory: u8, number: u16) -> String {
    match controller.row(memory, number) {
        Ok((row, text, owner)) => format!(
            "row {memory} {number} {} {} {} {} {:04x} {} {}",
            row.status,
            row.priority,
            row.beacon,
            row.pixel,
            row.crc,
            hexadecimal(&owner),
            hexadecimal(&text)
        ),
        Err(code) => format!("refused {code}"),
    }
}

fn report(controller: &mut Controller) -> String {
    let r = controller.report();
    format!(
        "report used={} free={} mode={} shown={}/{} crc={:04x} priority={} remaining={} requester={:08x} activate={} validate={} multi={} position={} clock={}",
        r.used, r.free, r.mode, r.shown_memory, r.shown_number, r.crc, r.priority, r.remaining, r.requester, r.activate, r.validate, r.multi, r.position, r.clock
    )
}

/// Ends the host if two answers don't agree.
fn hold(agrees: bool, what: &str) {
    if !agrees {
        eprintln!("control: {what}");
        exit(3);
    }
}

/// The pixels of a plane, row after row.
fn pixels(plane: &[u8], width: usize) -> Vec<bool> {
    plane
        .chunks(width.div_ceil(8))
        .flat_map(|row| (0..width).map(|column| row[column / 8] >> (7 - column % 8) & 1 == 1))
        .collect()
}

/// The pixels that have a colour.
fn coloured(colours: &[u8], colour: u8) -> Vec<bool> {
    colours.iter().map(|&other| other == colour).collect()
}

fn frame(controller: &mut Controller, colour: u8) -> String {
    let (shown, plane) = controller.frame(colour);
    let (same, colours) = controller.colours();
    let width = usize::from(controller.facts.width);
    let lit = pixels(&plane, width);
    hold(same == shown, "a frame shows another page than the colours");
    hold(lit == coloured(&colours, colour), "a frame has other pixels than the colours");
    let mut lines = match shown.is_on {
        0 => "off".to_string(),
        _ => format!("page {} phase {}", shown.page, shown.phase),
    };
    for row in lit.chunks(width) {
        lines.push('\n');
        lines.extend(row.iter().map(|&is_lit| if is_lit { '#' } else { '.' }));
    }
    lines
}

/// Judges a text by the defaults in force, and draws its first page in all colours and in one.
fn judge(controller: &mut Controller, text: &[u8]) {
    let verdict = controller.check(text);
    match (controller.first_colours(text), controller.first_plane(text, 1)) {
        (Ok(colours), Ok(plane)) => {
            let lit = pixels(&plane, usize::from(controller.facts.width));
            hold(verdict.outcome == 0 && verdict.pages > 0, "a text is drawn otherwise than judged");
            hold(lit == coloured(&colours, 1), "the plane of a page has other pixels than its colours");
        }
        (told, drawn) => hold(told == Err(verdict.outcome) && drawn == Err(verdict.outcome), "a text is drawn otherwise than judged"),
    }
}

/// Lets time pass, and sleeps up to a tenth before what is shown may change: until then it must stay.
fn pass(controller: &mut Controller, tenths: u32) -> Option<Reply> {
    let left = controller.next_change(tenths);
    hold(left <= tenths, "the next change is later than was asked for");
    let asleep = left.saturating_sub(1);
    if asleep > 0 {
        let (shown, colours) = controller.colours();
        let told = controller.tick(asleep)?;
        let (later, then) = controller.colours();
        hold(told.kind == 7, "a duration ended before the next change");
        hold((later.page, later.is_on) == (shown.page, shown.is_on) && then == colours, "what is shown changed before the next change");
    }
    controller.tick(tenths - asleep)
}

/// The reply to a line of a script, if it is one.
fn answer(controller: &mut Controller, line: &[u8]) -> Option<String> {
    use latsefur::Value;
    let words: Vec<&[u8]> = line.split(|&octet| octet == b' ').collect();
    let message = |words: &[&[u8]]| Some((number(words[1], 255)? as u8, number(words[2], 65535)? as u16));
    let what = match words[0] {
        b"request" => Some(Value::Request),
        b"priority" => Some(Value::Priority),
        b"beacon" => Some(Value::Beacon),
        b"pixel" => Some(Value::PixelService),
        _ => None,
    };
    let reply = match (words[0], words.len(), what) {
        (_, 4, Some(what)) => {
            let (memory, of) = message(&words)?;
            controller.set(what, memory, of, number(words[3], 255)? as u8)
        }
        (b"multi" | b"multix" | b"owner", 3.., _) => {
            let (memory, of) = message(&words)?;
            let text = words[3..].join(&b' ');
            let text = if words[0] == b"multi" { text } else { octets(&text)? };
            if words[0] == b"owner" {
                controller.set_owner(memory, of, &text)
            } else {
                judge(controller, &text);
                controller.set_multi(memory, of, &text)
            }
        }
        (b"clear", 1, _) => controller.clear(),
        (b"work", 1, _) => controller.work(),
        (b"activate", 2, _) => controller.activate(&octets(words[1])?),
        (b"end", 2, _) => controller.set_end(&octets(words[1])?),
        (b"tick", 2, _) => pass(controller, number(words[1], u64::from(u32::MAX))? as u32),
        (b"default", 3, _) => {
            let field = FIELDS.iter().position(|&name| name == words[1])? as u8 + 1;
            controller.set_default(field, number(words[2], 255)? as u8)
        }
        (b"row", 3, _) => {
            let (memory, of) = message(&words)?;
            return Some(row(controller, memory, of));
        }
        (b"frame", 2, _) => return Some(frame(controller, number(words[1], 255)? as u8)),
        (b"report", 1, _) => return Some(report(controller)),
        (b"defaults", 1, _) => return Some(controller.defaults().iter().fold("defaults".into(), |line, value| format!("{line} {value}"))),
        _ => None,
    };
    Some(told(reply?))
}

fn run(controller: &mut Controller) -> io::Result<bool> {
    let mut to = BufWriter::new(io::stdout().lock());
    for line in io::stdin().lock().split(b'\n') {
        let line = line?;
        let line = line.strip_suffix(b"\r").unwrap_or(&line);
        if line.is_empty() || line[0] == b'#' {
            continue;
        }
        match answer(controller, line) {
            Some(reply) => writeln!(to, "{reply}")?,
            None => return Ok(false),
        }
    }
    Ok(true)
}

fn main() {
    let Some(sign_file) = std::env::args_os().nth(1).and_then(|path| std::fs::read(path).ok()) else {
        exit(2);
    };
    let status = match Controller::new(&sign_file) {
        Ok(mut controller) => run(&mut controller).map_or(1, |is_good| i32::from(!is_good)),
        Err(_) => 2,
    };
    exit(status);
}
