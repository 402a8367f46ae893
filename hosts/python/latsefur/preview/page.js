"use strict";
// The page on which one writes a message. It draws what the program behind it tells, and knows nothing of MULTI: a message is a row of
// characters, and verdicts, places, times, pages and the colours of pixels are answers, and so are the tags that have buttons. What it says of a
// text and when it asks, state.js decides; panels.js draws signs, and helps.js lists what helps one to write.

// How many tenths of a second are asked for at once while a message plays, and how long before their end more are.
const AHEAD = 50;
const SOON = 25;

// The tenths of a second that one may choose from where what is shown has no end.
const MINUTE = 600;

// Milliseconds after which what is told is spoken.
const SPOKEN_AFTER = 700;

// Milliseconds after which more of a film is asked for that wasn't answered, and tenths of a second after the end of a film at which its last
// picture is no longer true.
const RETRIED_AFTER = 1000;
const LATE = 20;

// Milliseconds after which no answer on a film is waited for any more.
const FILM_PATIENCE = 10000;

// Milliseconds after a key until the text is kept in the link. Browsers refuse to change it at each key.
const KEPT_AFTER = 400;

// Milliseconds for which an accepted text stands until it is kept among those that were accepted.
const STOOD_AFTER = 3000;

const GONE = "the program behind this page doesn't answer";

async function ask(path, asked, signal) {
  const words = asked && {method: "POST", headers: {"Content-Type": "application/json"}, body: JSON.stringify(asked)};
  let reply;
  try {
    reply = await fetch(path, {...words, signal});
  } catch {
    throw new Error(GONE);
  }
  if (!reply.ok) {
    throw new Error((await read(reply)).said ?? `the answer is ${reply.status}`);
  }
  return reply;
}

async function read(reply) {
  try {
    return await reply.json();
  } catch (fault) {
    throw new Error(fault instanceof SyntaxError ? STRANGE : GONE);
  }
}

const told = async (path, asked, signal) => read(await ask(path, asked, signal));

// Asks until there is an answer; `lost` is told why there is none yet.
async function patiently(path, asked, lost) {
  for (let losses = 0; ; losses++) {
    try {
      return await told(path, asked);
    } catch (fault) {
      lost(fault.message);
      await new Promise((resolve) => setTimeout(resolve, pause(LOST, losses)));
    }
  }
}

const text = byId("text"), view = byId("view"), canvas = byId("sign");

// The first sign, and a panel for each.
let sign, panels = [];

// The time at the moment `begun`, and whether the pictures are what is wanted.
let from = 0, begun = 0, loading = false, seen = false;
let playing = !window.matchMedia("(prefers-reduced-motion: reduce)").matches;
let speaking = 0, resting = 0, standing = 0;

const looking = new Looking();

const now = () => playing ? from + Math.floor((performance.now() - begun) / 100) : from;

// All films are of the same message and time.
const filmOf = () => panels.map(({film}) => film).find((film) => film !== null) ?? null;

// All questions go through this, and what is told of a text is drawn from it alone.
const asking = new Asking({
  ask: (question, signal) => judged(question, 1, signal), answered: show, changed: tell,
  clock: {now: () => performance.now(), after: (rest, then) => setTimeout(then, rest), forget: clearTimeout.bind(window)},
});

// The answer on a text, and what is shown of it for some tenths of a second. Pictures of all pages come with the first of them.
async function judged({text: asked, view: chosen, caret, begin}, tenths, signal) {
  const answer = await told("judge", {text: asked, view: chosen, caret, begin, tenths, strip: tenths === 1}, signal);
  if (isAnswer(answer) && answer.stamp !== sign.stamp) {
    keep();
    location.reload();
    throw new Error("another sign is served now");
  }
  return answer;
}

// Wants the text that is there, and what is shown of it at a time. If it `keeps`, a film that plays the same page goes on.
function want(begin, keeps = false) {
  const chosen = looking.view(view.value, playing, performance.now());
  asking.want({text: text.value, view: chosen, caret: text.selectionStart, begin, keeps});
  text.dataset.revision = asking.judging.revision;
}

// Shows an answer that counts: its first pictures at once, and what comes later while it plays.
function show(answer, {begin, keeps}) {
  const parts = partsOf(answer);
  const goesOn = keeps && panels.every(({film}, place) => film ? film.goesOnWith(parts[place]) : !parts[place].accepted);
  followFont(answer.font);
  if (answer.accepted) {
    listPages(answer.pages);
    listStrip(answer.strip);
  }
  if (!goesOn) {
    panels.forEach((panel, place) => { panel.film = parts[place].accepted ? new Film(parts[place]) : null; });
    from = begin;
    begun = performance.now();
    draw(begin);
  }
}

// Draws all signs at a time.
function draw(time) {
  panels.forEach((panel) => panel.film && panel.draw(time));
  if (panels[0].film) {
    tellTime(panels[0].film, time);
  }
}

async function loadMore(begin) {
  const mine = panels.map(({film}) => film), {text: asked, page} = filmOf();
  let rest = 0;
  loading = true;
  try {
    const answer = await judged({text: asked, view: page, caret: 0, begin}, AHEAD, AbortSignal.timeout(FILM_PATIENCE));
    if (isAnswer(answer) && panels.every(({film}, place) => film === mine[place])) {
      partsOf(answer).forEach((part, place) => part.accepted && mine[place] && mine[place].extend(part, begin, now()));
    }
  } catch (fault) {
    rest = RETRIED_AFTER;
    asking.lose(fault.message);
  }
  setTimeout(() => { loading = false; }, rest);
}

function tellTime(film, time) {
  const frame = film.at(time), span = byId("time"), at = film.clock(time);
  span.max = film.repeats() ? film.cycle - 1 : MINUTE - 1;
  span.value = at;
  span.setAttribute("aria-valuetext", `${seconds(at)} seconds`);
  byId("clock").textContent = `${seconds(at)} s${film.repeats() ? ` of ${seconds(film.cycle)} s` : ""}, ${pageOf(frame, film)}`;
  if (frame.page !== shownPage) {
    shownPage = frame.page;
    tellPage();
  }
}

// Marks the small sign of the page that is shown.
let shownPage = null;

function tellPage() {
  [...byId("strip").children].forEach((element, page) => element.setAttribute("aria-current", String(page === shownPage)));
}

function play() {
  requestAnimationFrame(play);
  const film = filmOf();
  if (film && playing && panels.some(({holds}) => holds)) {
    const time = now();
    if (time < film.until) {
      draw(time);
    }
    if (!loading && time >= film.until - SOON) {
      loadMore(Math.max(time, film.until));
    }
    panels.forEach((panel) => panel.dim(!panel.holds || !seen || time > film.until + LATE));
  }
}

// ---- What is said of the message.

// Tells all that is known of the text, and nothing else.
function tell() {
  const said = asking.said(), parts = said.answer === null ? [] : partsOf(said.answer), {revision} = asking.judging.answer ?? {};
  seen = said.isSeen;
  const others = panels.map((panel, place) => {
    const part = parts[place] ?? null;
    return panel.tell(wordsOf({kind: part ? kindOf(part) : said.kind, answer: part}), part !== null && part.accepted, said.isSeen);
  });
  tellLost(asking.judging.lost);
  tellSlip(panels[0].words);
  if (others.includes(true)) {
    text.setAttribute("aria-invalid", panels[0].words.kind === "refused");
    clearTimeout(speaking);
    speaking = setTimeout(speak, SPOKEN_AFTER, panels.map(({sign: {name}, words}) => ({name, words})));
  }
  byId("strip").classList.toggle("stale", !panels[0].holds);
  if (!panels[0].holds) {
    byId("clock").textContent = canvas.dataset.page === undefined ? "" : "the last accepted message";
  }
  // The last thing that changes: who waits for an answer sees all of it.
  if (revision !== undefined && canvas.dataset.revision !== String(revision)) {
    canvas.dataset.revision = revision;
  }
}

function tellLost(why) {
  const words = why && `${why[0].toUpperCase()}${why.slice(1)}.`;
  // What is written again is spoken again.
  if (byId("why").textContent !== words) {
    byId("why").textContent = words;
  }
  byId("lost").hidden = why === "";
}

// Marks the slip in the field itself: the marks stand behind its text, letter below letter.
function tellSlip(words) {
  const slip = slipOf(words, text.value);
  byId("marks").hidden = slip === null;
  for (const id of ["before", "at", "after"]) {
    byId(id).textContent = slip === null ? "" : slip[id];
  }
  byId("marks").scrollTop = text.scrollTop;
}

function goTo(octet) {
  text.focus();
  text.setSelectionRange(octet, octet + characterAt(text.value, octet).length);
}

function speak(said) {
  byId("spoken").textContent = spokenOf(said);
}

function say(words) {
  byId("status").textContent = words;
}

// ---- What one does.

// The text area grows with its text, in a browser without `field-sizing` too.
function grow() {
  if (!CSS.supports("field-sizing", "content")) {
    text.style.height = "auto";
    text.style.height = `${text.scrollHeight + 2}px`;
  }
}

// A key, or what else changes the text. An undo that brings such a character back goes one step further, and so does a redo.
function changed({isComposing, inputType}) {
  if (!isComposing && toSpell(text.value)) {
    setTimeout(() => inputType in AGAIN ? document.execCommand(AGAIN[inputType]) : spell());
  }
  written();
}

const AGAIN = {historyUndo: "undo", historyRedo: "redo"};

// Writes characters above ASCII by their numbers, and line breaks as tags.
function spell() {
  const stretch = toSpell(text.value);
  if (stretch) {
    const caret = spelled(text.value.slice(0, text.selectionStart)).length;
    text.setSelectionRange(stretch.begin, stretch.end);
    insert(stretch.words);
    text.setSelectionRange(caret, caret);
  }
}

function written() {
  say("");
  grow();
  keeping ??= setTimeout(keep, KEPT_AFTER);
  keepHere();
  write();
  want(0);
  clearTimeout(standing);
  standing = setTimeout(stand, STOOD_AFTER);
}

// One writes, and sees the page of the caret; after a rest the message plays.
function write() {
  looking.write(performance.now());
  clearTimeout(resting);
  resting = setTimeout(rest, RESTED);
}

function rest() {
  const film = filmOf();
  looking.rest();
  if (view.value === "plays" && playing) {
    want(film && film.pages === 1 ? now() : 0);
  }
}

// The caret stands elsewhere: on another page, it may be, or in another font.
function moved() {
  const {wanted} = asking.judging;
  if (document.activeElement !== text || (wanted.text === text.value && wanted.caret === text.selectionStart)) {
    return;
  }
  if (looking.isWriting(performance.now())) {
    write();
  }
  const goesOn = asking.judging.isJudged() && looking.view(view.value, playing, performance.now()) !== "caret";
  want(goesOn ? now() : 0, true);
}

// Something is chosen to be seen.
function choose(chosen, begin = 0) {
  clearTimeout(resting);
  looking.rest();
  view.value = chosen;
  want(begin);
  tellChosen();
}

// An accepted text has stood for a while, or it is used.
const isAccepted = () => text.value !== "" && asking.judging.isJudged() && asking.judging.answer.accepted;

function stand() {
  if (isAccepted()) {
    changePast(() => past.stand(text.value));
  }
}

function use() {
  if (isAccepted()) {
    changePast(() => past.use(text.value));
  }
}

// Keeps the text in the link, so that it is there after a reload, and goes with the link.
let keeping = null;

function keep() {
  clearTimeout(keeping);
  keeping = null;
  try {
    history.replaceState(null, "", `${location.pathname}${hashOf(text.value)}`);
  } catch {
    // The browser takes no more for now; the next key keeps it.
  }
  keepHere();
}

// Keeps the text for a reload of this page that comes before it stands in the link. Another link has a text of its own.
const HERE = "latsefur.text";

function keepHere() {
  try {
    sessionStorage.setItem(HERE, JSON.stringify([location.hash, text.value]));
  } catch {
    // The link keeps it soon.
  }
}

function textHere() {
  try {
    return keptText(sessionStorage.getItem(HERE), location.hash);
  } catch {
    return textOf(location.hash);
  }
}

// Another link of this page was followed. One without a text is passed over.
function follow() {
  const linked = textOf(location.hash);
  if (linked && linked !== text.value) {
    replace(linked);
  } else {
    keep();
  }
}

// Writes into the message at the caret, so that it can be undone.
function insert(given) {
  const words = spelled(given);
  text.focus();
  if (!document.execCommand("insertText", false, words)) {
    text.setRangeText(words, text.selectionStart, text.selectionEnd, "end");
    text.dispatchEvent(new Event("input"));
  }
}

// Writes another message in place of the one that is there.
function replace(words) {
  past.leave();
  text.select();
  insert(words);
}

// Writes a tag around what is chosen, and keeps that chosen.
function writeTag(tag) {
  const {selectionStart: first, selectionEnd: last} = text, chosen = text.value.slice(first, last), {words, begin, end} = wrapped(tag, spelled(chosen));
  insert(words);
  text.setSelectionRange(first + begin, first + end);
}

function listPages(pages) {
  if (view.options.length !== pages + 2) {
    const chosen = view.value;
    const one = (value, words) => new Option(words, value);
    view.replaceChildren(one("plays", "all as it plays"), one("caret", "the caret's page"),
                         ...Array.from({length: pages}, (_, page) => one(String(page), `page ${page + 1}`)));
    view.value = [...view.options].some(({value}) => value === chosen) ? chosen : chosen === "" ? "plays" : String(pages - 1);
  }
}

let smallPages = [];

// A small sign for each page. One shows its page alone, and does so until it is pressed again.
function listStrip(pictures) {
  const strip = byId("strip");
  if (smallPages.length !== pictures.length) {
    smallPages = pictures.map((picture) => smallSign(sign, picture));
    strip.replaceChildren(...smallPages.map(({canvas: small}, page) => {
      const element = button("", () => choose(view.value === String(page) ? "plays" : String(page)));
      element.append(small, made("span", {}, `page ${page + 1}`));
      return element;
    }));
    tellPage();
  }
  pictures.forEach((picture, page) => smallPages[page].draw(picture));
  strip.hidden = pictures.length === 0;
  tellChosen();
}

function tellChosen() {
  [...byId("strip").children].forEach((element, page) => element.setAttribute("aria-pressed", String(view.value === String(page))));
}

function turn(plays) {
  const film = filmOf();
  from = now();
  begun = performance.now();
  playing = plays;
  byId("play").textContent = playing ? "Pause" : "Play";
  if (playing && film && film.page !== null && view.value === "plays") {
    choose("plays");
  }
}

async function copied() {
  use();
  try {
    await navigator.clipboard.writeText(text.value);
    return "The message is copied.";
  } catch {
    text.focus();
    text.select();
    return document.execCommand("copy") ? "The message is copied." : "The browser doesn't let this page copy.";
  }
}

// Saves a file, and gives its name: what is shown as PNG, or the message as it plays as GIF.
async function save(kind) {
  const {film, holds} = panels[0], isOne = kind === "png" && film && holds;
  const reply = await ask(kind, {text: text.value, view: isOne ? film.page : null, begin: now()});
  const link = made("a", {href: URL.createObjectURL(await reply.blob()), download: `${sign.name}.${kind}`});
  link.click();
  setTimeout(() => URL.revokeObjectURL(link.href), 10000);
  use();
  return link.download;
}

async function saved(kind) {
  try {
    say(`${await save(kind)} is saved.`);
  } catch (fault) {
    say(`No picture: ${fault.message}`);
  }
}

function fit() {
  panels.forEach((panel) => panel.fit());
  // On a phone the sign stays where it is, and what takes the focus is scrolled to below it.
  document.documentElement.style.setProperty("--case", `${byId("case").offsetHeight}px`);
}

function listen() {
  text.addEventListener("input", changed);
  text.addEventListener("compositionend", () => setTimeout(spell));
  text.addEventListener("keydown", (event) => {
    // The Enter that ends a composition is no line: Safari tells it by this number alone.
    if (event.key === "Enter" && !event.isComposing && event.keyCode !== 229) {
      event.preventDefault();
      insert(event.ctrlKey || event.metaKey ? "[np]" : "[nl]");
    }
  });
  text.addEventListener("paste", (event) => {
    const pasted = event.clipboardData.getData("text/plain");
    if (/[\r\n]/.test(pasted)) {
      event.preventDefault();
      insert(pasted.trim().replace(/\s*[\r\n]\s*/g, "[nl]"));
    }
  });
  text.addEventListener("scroll", () => { byId("marks").scrollTop = text.scrollTop; });
  document.addEventListener("selectionchange", moved);
  view.addEventListener("change", () => choose(view.value));
  byId("time").addEventListener("input", () => choose(view.value, Number(byId("time").value)));
  byId("play").addEventListener("click", () => turn(!playing));
  byId("go").addEventListener("click", () => goTo(Number(byId("go").dataset.at)));
  byId("copy").addEventListener("click", async () => say(await copied()));
  byId("save").addEventListener("click", () => saved("gif"));
  byId("save-png").addEventListener("click", () => saved("png"));
  byId("font").addEventListener("change", showFont);
  byId("use-font").addEventListener("click", () => {
    const number = byId("font").value;
    writeTag({open: `[fo${number}]`, close: "[fo]", pairs: false, replaces: false});
  });
  byId("forget").addEventListener("click", () => changePast(() => past.forget()));
  byId("cells").addEventListener("keydown", walk);
  window.addEventListener("resize", fit);
  window.addEventListener("resize", grow);
  window.addEventListener("hashchange", follow);
}

// Lays out what the signs are like.
function lay() {
  const named = [sign, ...sign.others].map(({name}) => name), several = named.length > 1;
  byId("name").textContent = `A message for ${named.join(" and ")}`;
  document.title = byId("name").textContent;
  byId("size").textContent = several ? "" : `${sizeOf(sign)}, at most ${sign.pages} pages`;
  byId("first").replaceChildren(...headOf(sign));
  byId("first").hidden = !several;
  byId("signs").classList.toggle("several", several);
  byId("shown").setAttribute("aria-label", several ? `The sign ${sign.name}` : "The sign");
  const own = ["outcome", "reason", "fixes", "code", "go", "warnings", "verdict", "case"].map((id) => [id, byId(id)]);
  const acts = {goTo, replace};
  panels = [new Panel({...sign, several}, {canvas, ...Object.fromEntries(own)}, acts),
            ...sign.others.map((other) => otherPanel({...other, several}, acts))];
  byId("signs").append(...panels.slice(1).map(({parts}) => parts.section));
}

async function begin() {
  text.value = textHere();
  byId("port").textContent = `--port ${location.port || 80}`;
  sign = await patiently("sign", undefined, tellLost);
  tellLost("");
  lay();
  fit();
  listPages(1);
  // Who wants nothing to move sees the page of the caret.
  view.value = playing ? "plays" : "caret";
  turn(playing);
  text.placeholder = sign.templates.length ? `For example ${sign.templates[0].text}` : "";
  listTags(sign.tags, writeTag);
  byId("list").replaceChildren(...sign.templates.map(template));
  byId("none").hidden = sign.templates.length > 0;
  byId("font").replaceChildren(...sign.fonts.map((number) => new Option(number, number)));
  recall();
  listPast();
  listen();
  requestAnimationFrame(play);
  grow();
  want(0);
  if (sign.fonts.length) {
    fontAtCaret = sign.font;
    byId("font").value = String(sign.font);
    await showFont();
  }
}

begin().catch((fault) => say(fault.message));
