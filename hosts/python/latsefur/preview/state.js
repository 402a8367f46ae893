"use strict";
// What the page may say of a text, and when it asks. No element of the page is known here, and no clock: `hosts/python/tests/state.js` hands
// in its own. Times are in milliseconds.

// How long a text may wait for its answer before the page says that it isn't judged, and how long another text waits for the answer to a question
// that is open.
const PATIENCE = 100;
const BUSY = 250;

// After how long a question is asked again: if no answer comes, and if it is known that none will. The last pause is that of all after it.
const UNANSWERED = [2000, 4000, 5000];
const LOST = [250, 500, 1000, 2000, 3000];

// How many questions may be open. A browser has six connections to a server, and a question that is never answered holds one.
const MOST_OPEN = 4;

// The part of a room that is enough to fill it.
const FILLED = 0.95;

const STRANGE = "what answers isn't the program of this page";

const pause = (pauses, count) => pauses[Math.min(count, pauses.length - 1)];

// What is wanted is a text with what is to be seen of it. It has a revision, which rises each time that something else is wanted. Only an
// answer to the newest revision counts, and whatever the page says of a text is of one answer: the last one that counted.
class Judging {
  constructor() {
    this.wanted = {text: ""};
    this.revision = 0;
    // How often this revision was asked, and when it is asked next.
    this.asks = 0;
    this.askAt = Infinity;
    // Until when another revision leaves the server to the question that is open.
    this.busyUntil = -Infinity;
    // The last answer that counted, with its text and its revision; since when the text is another one, and since when the revision is.
    this.answer = null;
    this.since = -Infinity;
    this.unseenSince = -Infinity;
    // Why the last question was lost, if it was, and how many were in a row.
    this.lost = "";
    this.losses = 0;
  }

  isJudged() {
    return this.answer !== null && this.answer.text === this.wanted.text;
  }

  isAnswered() {
    return this.answer !== null && this.answer.revision === this.revision;
  }

  want(wanted, now) {
    if (this.isJudged()) {
      this.since = now;
    }
    if (this.isAnswered()) {
      this.unseenSince = now;
    }
    Object.assign(this, {wanted, revision: this.revision + 1, asks: 0, askAt: Math.max(now, this.busyUntil)});
  }

  // The question that is due, if one is.
  question(now) {
    if (now < this.askAt) {
      return null;
    }
    this.askAt = now + pause(UNANSWERED, this.asks);
    this.busyUntil = now + BUSY;
    this.asks += 1;
    return {...this.wanted, revision: this.revision};
  }

  // Takes the answer to a question, and tells whether it counts. It doesn't if something else is wanted now, or if one has come before.
  take(revision, answer, now) {
    this.free(now);
    if (revision !== this.revision) {
      return false;
    }
    const isFirst = !this.isAnswered();
    if (isFirst) {
      this.answer = {...answer, text: this.wanted.text, revision};
    }
    Object.assign(this, {askAt: Infinity, lost: "", losses: 0});
    return isFirst;
  }

  // A question has no answer, and why. It is asked again.
  lose(revision, why, now) {
    this.free(now);
    if (revision === this.revision) {
      this.lost = why;
      this.askAt = Math.min(this.askAt, now + pause(LOST, this.losses));
      this.losses += 1;
    }
  }

  // A question isn't open any more. What wasn't asked yet is asked now.
  free(now) {
    this.busyUntil = -Infinity;
    if (this.asks === 0) {
      this.askAt = Math.min(this.askAt, now);
    }
  }

  // What the page says: the kind of the answer, with the answer, or that there is none. For a moment it is the answer to the text before. `isSeen` is
  // whether the picture is the one that is wanted, or was a moment ago.
  said(now) {
    const isTold = this.isJudged() || (this.answer !== null && this.lost === "" && now < this.since + PATIENCE);
    const isSeen = this.isAnswered() || now < this.unseenSince + PATIENCE;
    return isTold ? {kind: kindOf(this.answer), answer: this.answer, isSeen}
      : {kind: this.lost ? "gone" : "waiting", answer: null, isSeen: false};
  }

  // When the page says something else or a question is due, if nothing happens before.
  next(now) {
    const told = this.isJudged() ? Infinity : this.since + PATIENCE, seen = this.isAnswered() ? Infinity : this.unseenSince + PATIENCE;
    return Math.min(this.askAt, ...[told, seen].filter((time) => time > now));
  }
}

function kindOf({accepted, text, unfinished}) {
  if (accepted) {
    return text === "" ? "empty" : "accepted";
  }
  return unfinished ? "unfinished" : "refused";
}

// Whether an answer is one of the page's own server, as far as the page relies on it.
function isAnswer(answer) {
  const {accepted, name, frames, others} = answer ?? {};
  const isOwn = accepted === true ? Array.isArray(frames) && frames.length > 0 : accepted === false && typeof name === "string";
  return isOwn && (others ?? []).every(isAnswer);
}

// What an answer says of each sign, of the first one first.
function partsOf(answer) {
  return [answer, ...(answer.others ?? []).map((other) => ({...other, text: answer.text}))];
}

// Asks what is wanted until it is answered. `ask(question, signal)` gives the promise of an answer; `answered(answer, question)` is told of each
// that counts, and `changed()` whenever the page may have something else to say. `clock` has `now`, `after` and `forget`.
class Asking {
  constructor({ask, answered, changed, clock}) {
    Object.assign(this, {ask, answered, changed, clock, judging: new Judging(), open: [], timer: null});
  }

  want(wanted) {
    this.judging.want(wanted, this.clock.now());
    this.step();
  }

  lose(why) {
    this.judging.lose(this.judging.revision, why, this.clock.now());
    this.step();
  }

  said() {
    return this.judging.said(this.clock.now());
  }

  step() {
    const now = this.clock.now(), question = this.judging.question(now), next = this.judging.next(now);
    this.clock.forget(this.timer);
    this.timer = next < Infinity ? this.clock.after(Math.max(0, next - now), () => this.step()) : null;
    if (question) {
      this.send(question);
    }
    this.changed();
  }

  async send(question) {
    const canceller = new AbortController();
    this.open.push(canceller);
    if (this.open.length > MOST_OPEN) {
      this.open.shift().abort();
    }
    let counts = false;
    try {
      const answer = await this.ask(question, canceller.signal);
      if (!isAnswer(answer)) {
        throw new Error(STRANGE);
      }
      counts = this.judging.take(question.revision, answer, this.clock.now());
    } catch (fault) {
      if (!canceller.signal.aborted) {
        this.judging.lose(question.revision, fault.message, this.clock.now());
      }
    }
    this.open = this.open.filter((other) => other !== canceller);
    try {
      if (counts) {
        this.answered(this.judging.answer, question);
      }
    } finally {
      this.step();
    }
  }
}

// ---- What is shown.

// What is shown of an accepted message on a sign, from the time of its first frame up to `until`. A frame stands until the next one. `page` is the
// page that is shown alone, and then times are its phases; or it is `null`, and the message plays.
class Film {
  constructor(answer) {
    const {text, page, pages, cycle, until} = answer;
    Object.assign(this, {text, page, pages, cycle, until, frames: framesOf(answer)});
  }

  at(time) {
    return this.frames.findLast((frame) => frame.time <= time);
  }

  // Whether an answer goes on with the same message and page.
  goesOnWith({accepted, text, page}) {
    return accepted && this.text === text && this.page === page;
  }

  // Takes more, from `begin` on. What is over at `now` is forgotten, and so is all if there would be a gap.
  extend(answer, begin, now) {
    const isOver = (_, place, all) => all[place + 1] && all[place + 1].time <= now;
    const kept = this.until === begin ? this.frames.filter((...frame) => !isOver(...frame)) : [];
    this.frames = [...kept, ...framesOf(answer)];
    this.until = answer.until;
  }

  // The time in its message: one of several pages begins anew.
  clock(time) {
    return this.repeats() ? time % this.cycle : time;
  }

  repeats() {
    return this.page === null && this.pages > 1 && this.cycle > 0;
  }
}

const framesOf = ({frames, pictures}) => frames.map(([time, page, place]) => ({time, page, picture: pictures[place]}));

// How long after the last key a message plays again.
const RESTED = 1500;

// What is looked at: while one writes a message that plays, the page of the caret.
class Looking {
  constructor() {
    this.writtenUntil = -Infinity;
  }

  write(now) {
    this.writtenUntil = now + RESTED;
  }

  rest() {
    this.writtenUntil = -Infinity;
  }

  isWriting(now) {
    return now < this.writtenUntil;
  }

  // What is asked for: a page by its number, "caret", or `null` for the message as it plays. `chosen` is one of these, or "plays".
  view(chosen, isPlaying, now) {
    if (chosen === "plays") {
      return isPlaying && this.isWriting(now) ? "caret" : null;
    }
    return chosen === "caret" ? "caret" : Number(chosen);
  }
}

// ---- What was accepted, for this browser to go back to.

const MOST_PAST = 30;

// The newest text is the first one.
class Past {
  constructor(texts) {
    Object.assign(this, {texts, growing: null});
  }

  // A text was accepted, and stood for a while. If it goes on with the last such one, it takes that one's place.
  stand(text) {
    const isMore = this.growing !== null && text.startsWith(this.growing);
    this.add(text, isMore ? this.growing : null);
    this.growing = text;
  }

  // A text was accepted, and used: copied, say. It stays beside what goes on with it.
  use(text) {
    this.add(text, null);
    this.growing = null;
  }

  // Another text was begun.
  leave() {
    this.growing = null;
  }

  add(text, instead) {
    if (text !== "") {
      this.texts = [text, ...this.texts.filter((other) => other !== text && other !== instead)].slice(0, MOST_PAST);
    }
  }

  forget() {
    Object.assign(this, {texts: [], growing: null});
  }
}

// The texts that were kept. What anyone else has left there isn't taken.
function pastOf(kept) {
  try {
    const texts = JSON.parse(kept ?? "[]");
    const isText = (text) => typeof text === "string" && text !== "" && text.length <= MOST_CHARACTERS && !/[\u0000-\u001f]/.test(text);
    return Array.isArray(texts) ? [...new Set(texts.filter(isText))].slice(0, MOST_PAST) : [];
  } catch {
    return [];
  }
}

// ---- What is said in words.

const seconds = (tenths) => (tenths / 10).toFixed(1);

// The words of what `Judging.said` gives. `at` is the octet that is marked in `text`, if one is.
function wordsOf({kind, answer}) {
  const nothing = {kind, outcome: "", reason: "", fixes: [], code: "", text: "", at: null, warnings: []};
  const {[kind]: told} = {accepted: acceptedWords, refused: refusedWords, unfinished: unfinishedWords};
  return {...nothing, ...(told ? told(answer) : {outcome: OTHERWISE[kind]})};
}

const OTHERWISE = {empty: "Nothing is written yet.", waiting: "Not judged yet.", gone: "Not judged: no answer comes."};

function acceptedWords({pages, cycle, words}) {
  const outcome = pages === 1 ? "Accepted: 1 page." : `Accepted: ${pages} pages, ${seconds(cycle)} s in all.`;
  return {outcome, warnings: words ? words.warnings : [], code: words ? "" : "Whether something looks like a slip isn't known."};
}

function refusedWords(answer) {
  const {at, text, said, name, words} = answer;
  const reason = (words && words.reason) || said || spaced(name);
  return {outcome: "Refused.", reason, fixes: (words && words.fixes) || [], code: codeOf(answer), text, at};
}

// A fix in parts: what stands in the text that is refused, and what is new. If the edits don't lead to it, it is one part.
function partsOfFix({text, edits}, refused) {
  const parts = edits.flatMap(({from, text: words}, place) =>
    [{words: refused.slice(place ? edits[place - 1].to : 0, from), isNew: false}, {words, isNew: true}]);
  parts.push({words: refused.slice(edits.length ? edits[edits.length - 1].to : 0), isNew: false});
  return parts.map(({words}) => words).join("") === text ? parts.filter(({words}) => words) : [{words: text, isNew: false}];
}

// One is writing a tag: nothing is wrong yet.
function unfinishedWords(answer) {
  const isTag = answer.text[answer.at] === "[";
  const outcome = isTag ? "Not finished: a tag is open, and ] closes it." : "Not finished: a ] that is to be shown is written ]].";
  return {outcome, code: codeOf(answer)};
}

// What is heard: the words of each sign, behind its name if there are several.
function spokenOf(told) {
  const said = told.map(({name, words: {outcome, reason, fixes, warnings}}) => {
    const ways = fixes.length === 0 ? "" : `Buttons write what the sign takes instead: ${fixes.length}.`;
    const parts = [outcome, reason, ways, ...warnings.map((one) => one.text)];
    return (told.length > 1 ? [`${name}:`, ...parts] : parts).filter(Boolean).join(" ");
  });
  return said.join(" ");
}

// The slip in a text that is there, in three parts: what stands before the octet of the words, its character, and what stands after it. If no
// octet is marked, or the words are of another text, there is no slip. A space stands where the text is over.
function slipOf({text, at}, there) {
  if (at === null || text !== there) {
    return null;
  }
  const character = characterAt(text, at);
  return {before: text.slice(0, at), at: character || " ", after: text.slice(at + character.length)};
}

// The character that stands at an octet: one above U+FFFF is two for the browser, of which neither stands alone. Nothing stands at the end.
function characterAt(text, at) {
  const number = text.codePointAt(at);
  return number === undefined ? "" : String.fromCodePoint(number);
}

// The name of an error with its number, and where it stands.
function codeOf({name, code, at}) {
  return `${name}${code ? ` (${code})` : ""}${at === null ? "" : ` at octet ${at}`}`;
}

// A name such as textTooBig as words.
function spaced(name) {
  return name.replace(/[A-Z]+/g, (capitals) => ` ${capitals.toLowerCase()}`);
}

// ---- Characters that are written otherwise than they are typed.

// The most characters of a text: those of the text area.
const MOST_CHARACTERS = 4096;

// From the first of these on a character is written by its number. Above the last one, and for half a character, MULTI has no number.
const FIRST_SPELLED = 127;
const LAST_SPELLED = 0xffff;

// A text with each such character as `[hc..]`, so that it has octets of ASCII alone, and with each line break as its tag: what is dropped
// has such, and some keyboards of phones write one without a key.
function spelled(text) {
  return [...text].map(spelling).join("");
}

function spelling(character) {
  if (character === "\n") {
    return "[nl]";
  }
  const number = character.codePointAt(0), isHalf = number >= 0xd800 && number <= 0xdfff;
  return number < FIRST_SPELLED || number > LAST_SPELLED || isHalf ? character : `[hc${number.toString(16)}]`;
}

// The stretch of a text from the first to the last such character: where it begins, where it ends, and how it is spelled. `null` if there is
// none, or if the text would be too long then: the browser would cut it.
function toSpell(text) {
  const places = [...text.matchAll(/[^\u0000-\u007e]|\n/gu)].filter(([it]) => spelling(it) !== it);
  if (places.length === 0 || spelled(text).length > MOST_CHARACTERS) {
    return null;
  }
  const begin = places[0].index, last = places[places.length - 1], end = last.index + last[0].length;
  return {begin, end, words: spelled(text.slice(begin, end))};
}

// ---- Tags that are written by a button.

// What is written for a tag in place of what is chosen, and which part of it is chosen then: from `begin` to `end`.
function wrapped({open, close, pairs, replaces}, chosen) {
  if (replaces) {
    return {words: open, begin: open.length, end: open.length};
  }
  const last = chosen !== "" || pairs ? close : "";
  return {words: `${open}${chosen}${last}`, begin: open.length, end: open.length + chosen.length};
}

// ---- The link of a text: it stands after the `#`.

// What stands after the page's address. All but letters and digits is percent-encoded, so that no program that finds links in a letter cuts it.
function hashOf(text) {
  try {
    const hash = encodeURIComponent(text).replace(/[^A-Za-z0-9%]/g, (other) => `%${other.charCodeAt(0).toString(16)}`);
    return hash && `#${hash}`;
  } catch {
    return "";
  }
}

// The text of a link, spelled. What isn't a text of UTF-8, has control characters or is too long is none.
function textOf(hash) {
  try {
    const linked = decodeURIComponent(hash.slice(1)), text = spelled(linked);
    return text.length <= MOST_CHARACTERS && !/[\u0000-\u001f]/.test(linked) ? text : "";
  } catch {
    return "";
  }
}

// The text of a page with this link that was kept beside it, as `[link, text]`, or else that of the link.
function keptText(kept, hash) {
  const [link, text] = JSON.parse(kept) ?? [];
  return link === hash && typeof text === "string" && text.length <= MOST_CHARACTERS ? text : textOf(hash);
}

// ---- How large a picture is.

// How a picture with `width` dots a row is drawn in a room: the points of the screen for a dot, and the width in which it is shown. The room and
// `largest`, the most that a dot may have, are in CSS pixels, of which each has `ratio` points. Whole points are crisp. Where they would leave much
// of a room that is to be filled, about twice as many are drawn, and shown smaller.
function fitted(room, width, ratio, largest, fills) {
  const wanted = Math.max(fills ? 0 : 1, Math.min(largest, room / width) * ratio), whole = Math.floor(wanted);
  return !fills || whole >= FILLED * wanted
    ? {pitch: whole, shown: whole * width / ratio}
    : {pitch: Math.ceil(2 * wanted), shown: wanted * width / ratio};
}

// Node's tests take this file as a module; in the page it is a script.
if (typeof module === "object") {
  module.exports = {
    Asking, BUSY, Film, Judging, LOST, Looking, MOST_CHARACTERS, MOST_OPEN, MOST_PAST, PATIENCE, Past, RESTED, UNANSWERED,
    characterAt, fitted, hashOf, keptText, kindOf, partsOf, partsOfFix, pastOf, slipOf, spelled, spokenOf, textOf, toSpell, wordsOf, wrapped,
  };
}
