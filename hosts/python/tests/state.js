"use strict";
// What the page says of a text while its answers are late, out of order or lost, and while its server is gone. No browser is needed:
// `node state.js FILE`, with the preview's state.js. tests/test_preview.py runs it.

const assert = require("assert");
const {
  Asking, BUSY, Film, LOST, Looking, MOST_CHARACTERS, MOST_OPEN, MOST_PAST, PATIENCE, Past, RESTED, UNANSWERED,
  characterAt, fitted, hashOf, keptText, kindOf, partsOf, partsOfFix, pastOf, slipOf, spelled, spokenOf, textOf, toSpell, wordsOf, wrapped,
} = require(process.argv[2]);

const settled = () => new Promise(setImmediate);

// A clock that goes when it is told to.
class Clock {
  constructor() {
    Object.assign(this, {time: 0, count: 0, waiting: new Map()});
  }

  now() {
    return this.time;
  }

  after(rest, then) {
    this.waiting.set(++this.count, {at: this.time + rest, then});
    return this.count;
  }

  forget(number) {
    this.waiting.delete(number);
  }

  async go(milliseconds) {
    const end = this.time + milliseconds;
    await settled();
    for (let due = this.due(end); due; due = this.due(end)) {
      this.time = due[1].at;
      this.waiting.delete(due[0]);
      due[1].then();
      await settled();
    }
    this.time = end;
  }

  due(end) {
    const soon = [...this.waiting].filter(([, {at}]) => at <= end);
    return soon.sort(([one, first], [other, second]) => first.at - second.at || one - other)[0];
  }
}

// What a sign of four characters says.
function verdict(text) {
  const words = {reason: "", warnings: [{octet: 0, text: `warned of ${text}`}]};
  return text.length <= 4
    ? {accepted: true, pages: 1, cycle: 30, page: null, frames: [[0, 0, 0]], until: 1, pictures: [text], words}
    : {accepted: false, code: 5, name: "textTooBig", at: 4, words: {reason: `${text} is too big`, warnings: []}};
}

// A page without a browser, and its server. `delay` is how long each answer takes, or Infinity; `alive` whether the server is there.
class Bench {
  constructor() {
    const clock = new Clock();
    Object.assign(this, {clock, delay: () => 10, alive: true, asked: [], shown: [], aborted: 0});
    this.asking = new Asking({
      clock, ask: (question, signal) => this.ask(question, signal), answered: ({text}) => this.shown.push(text),
      changed: () => { this.drawn = this.asking.said(); },
    });
  }

  ask(question, signal) {
    this.asked.push({...question, at: this.clock.time});
    const delay = this.delay(question);
    return new Promise((resolve, reject) => {
      const lose = () => reject(new Error("nothing answers"));
      signal.addEventListener("abort", () => { this.aborted += 1; lose(); });
      if (!this.alive) {
        this.clock.after(1, lose);
      } else if (delay < Infinity) {
        this.clock.after(delay, () => this.alive ? resolve(verdict(question.text)) : lose());
      }
    });
  }

  type(text) {
    this.asking.want({text, view: null, caret: 0, begin: 0});
  }

  // What the page says since it was last drawn; of another text than its own it says something for a moment alone.
  says() {
    const {judging} = this.asking, {kind, answer, isSeen} = this.drawn;
    assert(!isSeen || judging.isAnswered() || this.clock.time < judging.unseenSince + PATIENCE);
    if (answer) {
      const isOwn = answer.text === judging.wanted.text;
      assert(isOwn || this.clock.time < judging.since + PATIENCE, `${judging.wanted.text} is told of as ${answer.text}`);
      const {accepted, words} = verdict(answer.text);
      assert.deepStrictEqual([answer.accepted, answer.words], [accepted, words]);
    }
    return answer ? `${kind} ${answer.text}` : kind;
  }
}

const tests = {
  async "an answer"() {
    const bench = new Bench();
    bench.type("A");
    assert.strictEqual(bench.says(), "waiting");
    await bench.clock.go(10);
    assert.strictEqual(bench.says(), "accepted A");
    bench.type("ABCDE");
    await bench.clock.go(10);
    assert.strictEqual(bench.says(), "refused ABCDE");
    await bench.clock.go(60000);
    assert.deepStrictEqual([bench.asked.length, bench.shown], [2, ["A", "ABCDE"]]);
  },

  async "late answers"() {
    const bench = new Bench();
    bench.type("A");
    await bench.clock.go(10);
    bench.delay = () => PATIENCE + 150;
    bench.type("AB");
    await bench.clock.go(PATIENCE - 1);
    assert.strictEqual(bench.says(), "accepted A");
    await bench.clock.go(1);
    assert.strictEqual(bench.says(), "waiting");
    await bench.clock.go(150);
    assert.strictEqual(bench.says(), "accepted AB");
  },

  async "a choice whose picture is late"() {
    const bench = new Bench();
    bench.type("A");
    await bench.clock.go(10);
    bench.delay = () => PATIENCE + 150;
    bench.type("A");
    await bench.clock.go(PATIENCE - 1);
    assert.deepStrictEqual([bench.says(), bench.drawn.isSeen], ["accepted A", true]);
    await bench.clock.go(1);
    assert.deepStrictEqual([bench.says(), bench.drawn.isSeen], ["accepted A", false]);
    await bench.clock.go(150);
    assert.deepStrictEqual([bench.says(), bench.drawn.isSeen], ["accepted A", true]);
  },

  async "keys faster than answers"() {
    const bench = new Bench();
    bench.type("A");
    await bench.clock.go(10);
    bench.delay = () => 120;
    for (const text of ["AB", "ABC", "ABCD", "ABCDE"]) {
      bench.type(text);
      await bench.clock.go(100);
    }
    assert.strictEqual(bench.says(), "waiting");
    await bench.clock.go(80);
    assert.strictEqual(bench.says(), "refused ABCDE");
    assert.deepStrictEqual(bench.shown, ["A", "ABCDE"]);
  },

  async "a key that is held down"() {
    const bench = new Bench();
    bench.delay = () => 100;
    for (let key = 0; key <= 30; key++) {
      bench.type("A".repeat(1 + key % 4));
      await bench.clock.go(20);
    }
    await bench.clock.go(180);
    assert.strictEqual(bench.says(), "accepted AAA");
    assert.strictEqual(bench.asked.length, 8);
  },

  async "a key while an answer is very late"() {
    const bench = new Bench();
    bench.delay = ({text}) => text === "A" ? Infinity : 10;
    bench.type("A");
    await bench.clock.go(10);
    bench.type("AB");
    await bench.clock.go(BUSY);
    assert.strictEqual(bench.says(), "accepted AB");
  },

  async "answers out of order"() {
    const bench = new Bench();
    bench.delay = ({text}) => text === "A" ? 600 : 20;
    bench.type("A");
    await bench.clock.go(10);
    bench.type("ABCDE");
    await bench.clock.go(BUSY + 10);
    assert.strictEqual(bench.says(), "refused ABCDE");
    await bench.clock.go(1000);
    assert.strictEqual(bench.says(), "refused ABCDE");
    assert.deepStrictEqual(bench.shown, ["ABCDE"]);
  },

  async "an answer that never comes"() {
    const bench = new Bench();
    bench.delay = () => Infinity;
    bench.type("A");
    await bench.clock.go(UNANSWERED[0] + UNANSWERED[1]);
    assert.deepStrictEqual([bench.says(), bench.asked.length], ["waiting", 3]);
    bench.delay = () => 10;
    await bench.clock.go(UNANSWERED[2] + 10);
    assert.deepStrictEqual([bench.says(), bench.asked.length], ["accepted A", 4]);
    bench.delay = () => Infinity;
    bench.type("AB");
    await bench.clock.go(UNANSWERED[0]);
    assert.strictEqual(bench.asked.length, 6);
  },

  async "few questions are open"() {
    const bench = new Bench();
    bench.delay = () => Infinity;
    bench.type("A");
    await bench.clock.go(60000);
    assert.strictEqual(bench.asking.open.length, MOST_OPEN);
    assert.strictEqual(bench.aborted, bench.asked.length - MOST_OPEN);
    assert.strictEqual(bench.says(), "waiting");
  },

  async "an answer to the first of two questions"() {
    const bench = new Bench();
    bench.delay = () => UNANSWERED[0] + 500;
    bench.type("A");
    await bench.clock.go(UNANSWERED[0] + 500);
    assert.deepStrictEqual([bench.says(), bench.asked.length], ["accepted A", 2]);
    const {answer} = bench.asking.judging;
    await bench.clock.go(60000);
    assert.deepStrictEqual([bench.shown, bench.asked.length], [["A"], 2]);
    assert.strictEqual(bench.asking.judging.answer, answer);
  },

  async "a server that is killed and comes back"() {
    const bench = new Bench();
    bench.type("A");
    await bench.clock.go(10);
    bench.alive = false;
    bench.type("AB");
    await bench.clock.go(1);
    assert.strictEqual(bench.says(), "gone");
    await bench.clock.go(60000);
    assert.strictEqual(bench.says(), "gone");
    const times = bench.asked.slice(1).map(({at}) => at), pauses = times.slice(1).map((at, place) => at - times[place] - 1);
    assert.deepStrictEqual(pauses.slice(0, LOST.length), LOST);
    assert(pauses.every((rest) => rest <= LOST[LOST.length - 1]));
    bench.alive = true;
    await bench.clock.go(LOST[LOST.length - 1] + 10);
    assert.deepStrictEqual([bench.says(), bench.asking.judging.lost], ["accepted AB", ""]);
  },

  async "a server that is killed with a question open"() {
    const bench = new Bench();
    bench.delay = () => 100;
    bench.type("A");
    await bench.clock.go(50);
    bench.alive = false;
    await bench.clock.go(50);
    assert.strictEqual(bench.says(), "gone");
    bench.alive = true;
    await bench.clock.go(LOST[0] + 100);
    assert.strictEqual(bench.says(), "accepted A");
  },

  async "a key while the server is killed"() {
    const bench = new Bench();
    bench.delay = () => 100;
    bench.type("A");
    await bench.clock.go(50);
    bench.type("AB");
    bench.alive = false;
    await bench.clock.go(51);
    assert.deepStrictEqual([bench.says(), bench.asked.length], ["gone", 2]);
  },

  async "the loss of an older question"() {
    const bench = new Bench();
    bench.delay = ({text}) => text === "A" ? BUSY + 100 : 200;
    bench.type("A");
    await bench.clock.go(50);
    bench.type("AB");
    await bench.clock.go(BUSY + 40);
    bench.alive = false;
    await bench.clock.go(20);
    bench.alive = true;
    assert.strictEqual(bench.says(), "waiting");
    await bench.clock.go(90);
    assert.deepStrictEqual([bench.says(), bench.asked.length], ["accepted AB", 2]);
  },

  async "a text that was judged stays so"() {
    const bench = new Bench();
    bench.type("A");
    await bench.clock.go(10);
    bench.alive = false;
    bench.type("A");
    await bench.clock.go(5000);
    assert.deepStrictEqual([bench.says(), bench.asking.judging.lost], ["accepted A", "nothing answers"]);
    bench.type("AB");
    await bench.clock.go(1000);
    assert.strictEqual(bench.says(), "gone");
    bench.type("A");
    assert.strictEqual(bench.says(), "accepted A");
  },

  async "a loss that something else notices"() {
    const bench = new Bench();
    bench.type("A");
    await bench.clock.go(10);
    bench.asking.lose("no film");
    assert.deepStrictEqual([bench.says(), bench.asking.judging.lost], ["accepted A", "no film"]);
    await bench.clock.go(LOST[0] + 10);
    assert.deepStrictEqual([bench.asking.judging.lost, bench.shown], ["", ["A"]]);
  },

  async "a picture that can't be drawn"() {
    const bench = new Bench();
    bench.asking.answered = () => { throw new Error("no picture"); };
    bench.asking.judging.want({text: "A"}, 0);
    const sent = bench.asking.send(bench.asking.judging.question(0));
    await Promise.all([assert.rejects(sent, /no picture/), bench.clock.go(10)]);
    assert.strictEqual(bench.says(), "accepted A");
  },

  async "what is no answer"() {
    const others = [{...verdict("A"), others: [{}]}, {...verdict("A"), others: [verdict("A"), {accepted: true}]}];
    for (const wrong of [null, 1, {}, {accepted: 1}, {accepted: true}, {accepted: true, frames: []}, {accepted: false}, ...others]) {
      const bench = new Bench();
      bench.asking.ask = async () => wrong;
      bench.type("A");
      await bench.clock.go(1);
      assert.strictEqual(bench.says(), "gone");
    }
  },

  // The same keys, delays and losses each time.
  async "chance"() {
    let seed = 1;
    const chance = (below) => {
      seed = (seed * 48271) % 2147483647;
      return seed % below;
    };
    for (let round = 0; round < 40; round++) {
      const bench = new Bench();
      bench.delay = () => [5, 20, 120, 400, 3000, Infinity][chance(6)];
      for (let key = 0; key < 30; key++) {
        bench.type("ABCDEF".slice(0, chance(7)));
        for (let look = 0; look < 4; look++) {
          await bench.clock.go(chance(120));
          bench.says();
        }
        bench.alive = chance(8) !== 0;
      }
      Object.assign(bench, {alive: true, delay: () => 10});
      await bench.clock.go(UNANSWERED[UNANSWERED.length - 1] + 10);
      const {wanted} = bench.asking.judging;
      assert.strictEqual(bench.says(), `${kindOf({...verdict(wanted.text), text: wanted.text})} ${wanted.text}`);
    }
  },

  async "words"() {
    const told = (answer) => wordsOf({kind: kindOf(answer), answer});
    assert.strictEqual(wordsOf({kind: "waiting", answer: null}).outcome, "Not judged yet.");
    assert.strictEqual(wordsOf({kind: "gone", answer: null}).outcome, "Not judged: no answer comes.");
    const empty = told({...verdict(""), text: ""});
    assert.deepStrictEqual([empty.kind, empty.outcome, empty.warnings], ["empty", "Nothing is written yet.", []]);
    assert.strictEqual(told({...verdict("ABCDE"), text: ""}).kind, "refused");
    const one = told({...verdict("A"), text: "A"});
    assert.deepStrictEqual([one.outcome, one.code, one.at, one.warnings.length], ["Accepted: 1 page.", "", null, 1]);
    assert.strictEqual(told({...verdict("A"), pages: 2, cycle: 65}).outcome, "Accepted: 2 pages, 6.5 s in all.");
    assert.strictEqual(told({...verdict("A"), words: null}).code, "Whether something looks like a slip isn't known.");
    const big = told({...verdict("ABCDE"), text: "ABCDE"});
    assert.deepStrictEqual([big.outcome, big.reason, big.code, big.at], ["Refused.", "ABCDE is too big", "textTooBig (5) at octet 4", 4]);
    assert.strictEqual(told({...verdict("ABCDE"), words: null}).reason, "text too big");
    const open = told({accepted: false, code: 3, name: "unsupportedTag", at: 1, unfinished: true, text: "A[n", words: {reason: "no tag"}});
    assert.deepStrictEqual([open.kind, open.reason, open.code, open.at], ["unfinished", "", "unsupportedTag (3) at octet 1", null]);
    assert.strictEqual(open.outcome, "Not finished: a tag is open, and ] closes it.");
    const lone = told({accepted: false, code: 3, name: "unsupportedTag", at: 0, unfinished: true, text: "]", words: null});
    assert.strictEqual(lone.outcome, "Not finished: a ] that is to be shown is written ]].");
    const long = told({accepted: false, at: null, said: "at most 4096 octets", name: "too long", words: null});
    assert.deepStrictEqual([long.reason, long.code, long.at], ["at most 4096 octets", "too long", null]);
  },

  async "several signs"() {
    const others = [verdict("ABCDE"), verdict("A")], parts = partsOf({...verdict("A"), text: "A", others});
    assert.deepStrictEqual(parts.map(({accepted, text}) => [accepted, text]), [[true, "A"], [false, "A"], [true, "A"]]);
    assert.strictEqual(partsOf({...verdict("A"), text: "A"}).length, 1);
    const told = parts.slice(0, 2).map((part, place) => ({name: ["one", "two"][place], words: wordsOf({kind: kindOf(part), answer: part})}));
    assert.strictEqual(spokenOf(told.slice(0, 1)), "Accepted: 1 page. warned of A");
    assert.strictEqual(spokenOf(told), "one: Accepted: 1 page. warned of A two: Refused. ABCDE is too big");
    const mended = [{name: "one", words: {...told[1].words, fixes: [{text: "A", edits: []}]}}];
    assert.strictEqual(spokenOf(mended), "Refused. ABCDE is too big Buttons write what the sign takes instead: 1.");
  },

  async "a fix in parts"() {
    const edit = (from, to, text) => ({from, to, text}), parts = (...words) => words.map((it, place) => ({words: it, isNew: place % 2 === 1}));
    const fix = {text: "ROAD[nl]WORK!", edits: [edit(4, 5, "[nl]"), edit(9, 9, "!")]};
    assert.deepStrictEqual(partsOfFix(fix, "ROAD WORK"), parts("ROAD", "[nl]", "WORK", "!"));
    assert.deepStrictEqual(partsOfFix({text: "AC", edits: [edit(1, 2, "")]}, "ABC").map(({words}) => words), ["A", "C"]);
    assert.deepStrictEqual(partsOfFix({text: "[nl]B", edits: [edit(0, 1, "[nl]")]}, "AB"), [{words: "[nl]", isNew: true}, {words: "B", isNew: false}]);
    // Edits that lead elsewhere aren't believed.
    for (const edits of [[], [edit(0, 9, "C")], [edit(0, 1, null)]]) {
      assert.deepStrictEqual(partsOfFix({text: "B", edits}, "A"), parts("B"));
    }
    const told = wordsOf({kind: "refused", answer: {...verdict("ABCDE"), text: "ABCDE", words: {reason: "no", warnings: [], fixes: [fix]}}});
    assert.deepStrictEqual(told.fixes, [fix]);
  },

  async "a slip in the field"() {
    assert.deepStrictEqual(slipOf({text: "AB[x]", at: 2}, "AB[x]"), {before: "AB", at: "[", after: "x]"});
    assert.deepStrictEqual(slipOf({text: "AB", at: 2}, "AB"), {before: "AB", at: " ", after: ""});
    assert.deepStrictEqual(slipOf({text: "A\ud83d\udea7B", at: 1}, "A\ud83d\udea7B"), {before: "A", at: "\ud83d\udea7", after: "B"});
    assert.deepStrictEqual([slipOf({text: "AB", at: 1}, "ABC"), slipOf({text: "AB", at: null}, "AB")], [null, null]);
  },

  async "a film"() {
    const told = (frames, until, more) => ({text: "A", page: null, pages: 2, cycle: 30, frames, until, pictures: ["a", "b"], ...more});
    const film = new Film(told([[0, 0, 0], [5, null, 1]], 8));
    assert.deepStrictEqual([0, 4, 5, 7].map((time) => film.at(time).picture), ["a", "a", "b", "b"]);
    assert.deepStrictEqual([film.clock(31), film.repeats()], [1, true]);
    film.extend(told([[8, 1, 0]], 12), 8, 6);
    assert.deepStrictEqual([film.frames.map(({time}) => time), film.until, film.at(9).page], [[5, 8], 12, 1]);
    film.extend(told([[20, 0, 0]], 25), 20, 21);
    assert.deepStrictEqual(film.frames.map(({time}) => time), [20]);
    for (const more of [{page: 1}, {pages: 1}, {cycle: 0}]) {
      const still = new Film(told([[0, 0, 0]], 1, more));
      assert.deepStrictEqual([still.clock(31), still.repeats()], [31, false]);
    }
    assert(film.goesOnWith({accepted: true, text: "A", page: null}));
    for (const other of [{accepted: false}, {text: "B"}, {page: 0}]) {
      assert(!film.goesOnWith({accepted: true, text: "A", page: null, ...other}));
    }
  },

  async "what is looked at"() {
    const looking = new Looking();
    assert.deepStrictEqual([looking.view("plays", true, 0), looking.view("caret", true, 0), looking.view("2", true, 0)], [null, "caret", 2]);
    looking.write(100);
    assert.deepStrictEqual([looking.view("plays", true, 100), looking.view("plays", false, 100)], ["caret", null]);
    assert.deepStrictEqual([looking.view("2", true, 100), looking.view("caret", false, 100)], [2, "caret"]);
    assert.deepStrictEqual([100 + RESTED - 1, 100 + RESTED].map((now) => looking.isWriting(now)), [true, false]);
    looking.write(200);
    looking.rest();
    assert.strictEqual(looking.view("plays", true, 201), null);
  },

  async "what was accepted before"() {
    const past = new Past([]);
    for (const text of ["RO", "ROAD", "ROAD WORK"]) {
      past.stand(text);
    }
    assert.deepStrictEqual(past.texts, ["ROAD WORK"]);
    past.stand("FOG");
    past.use("FOG");
    past.stand("FOG AHEAD");
    assert.deepStrictEqual(past.texts, ["FOG AHEAD", "FOG", "ROAD WORK"]);
    past.leave();
    past.stand("ROAD WORK");
    past.leave();
    past.stand("ROAD WORK 2");
    assert.deepStrictEqual(past.texts, ["ROAD WORK 2", "ROAD WORK", "FOG AHEAD", "FOG"]);
    past.use("");
    for (let number = 0; number < 2 * MOST_PAST; number++) {
      past.use(`M${number}`);
    }
    assert.deepStrictEqual([past.texts.length, past.texts[0], past.texts.includes("FOG")], [MOST_PAST, `M${2 * MOST_PAST - 1}`, false]);
    past.forget();
    past.stand("A");
    assert.deepStrictEqual(past.texts, ["A"]);
  },

  async "what a browser has kept"() {
    assert.deepStrictEqual(pastOf(JSON.stringify(["A", "B[nl]C"])), ["A", "B[nl]C"]);
    const wrong = [1, null, "", "A\nB", "A".repeat(MOST_CHARACTERS + 1), ["A"], {}];
    assert.deepStrictEqual(pastOf(JSON.stringify(["A", ...wrong, "A"])), ["A"]);
    for (const kept of [null, undefined, "", "{", "{}", "1", "null", '"A"']) {
      assert.deepStrictEqual(pastOf(kept), []);
    }
    assert.strictEqual(pastOf(JSON.stringify(Array.from({length: 99}, (_, number) => `M${number}`))).length, MOST_PAST);
  },

  async "tags around what is chosen"() {
    const tag = {open: "[cf1]", close: "[cf]", pairs: false, replaces: false};
    assert.deepStrictEqual(wrapped(tag, "AB"), {words: "[cf1]AB[cf]", begin: 5, end: 7});
    assert.deepStrictEqual(wrapped(tag, ""), {words: "[cf1]", begin: 5, end: 5});
    assert.deepStrictEqual(wrapped({...tag, pairs: true}, ""), {words: "[cf1][cf]", begin: 5, end: 5});
    assert.deepStrictEqual(wrapped({...tag, replaces: true}, "AB"), {words: "[cf1]", begin: 5, end: 5});
    assert.deepStrictEqual(wrapped({...tag, close: ""}, "AB"), {words: "[cf1]AB", begin: 5, end: 7});
  },

  async "sizes"() {
    assert.deepStrictEqual(fitted(1182, 144, 1, 16), {pitch: 8, shown: 1152});
    assert.deepStrictEqual(fitted(1182, 12, 1, 16), {pitch: 16, shown: 192});
    assert.deepStrictEqual(fitted(300, 1024, 1, 16), {pitch: 1, shown: 1024});
    assert.deepStrictEqual(fitted(350, 144, 1, 60), {pitch: 2, shown: 288});
    assert.deepStrictEqual(fitted(350, 144, 1, 60, true), {pitch: 5, shown: 350});
    for (const width of [1, 12, 50, 96, 144, 200, 1024]) {
      for (const ratio of [1, 1.5, 2, 2.75, 3]) {
        const {pitch, shown} = fitted(350, width, ratio, 1000, true);
        assert(Number.isInteger(pitch) && shown <= 350.001 && shown >= 0.95 * 350 && pitch * width >= shown * ratio - 0.001);
      }
    }
  },

  async "characters above ASCII"() {
    const printed = Array.from({length: 127}, (_, number) => String.fromCharCode(number)).join("").replace("\n", "");
    for (const text of ["", printed, "\ud83d\udea7", "\ud83d"]) {
      assert.deepStrictEqual([spelled(text), toSpell(text)], [text, null]);
    }
    assert.strictEqual(spelled("A\u007f\u00e9[\u2190]\uffff"), "A[hc7f][hce9][[hc2190]][hcffff]");
    assert.deepStrictEqual(toSpell("A\u00e9"), {begin: 1, end: 2, words: "[hce9]"});
    assert.deepStrictEqual(toSpell("A\nB\u00e9"), {begin: 1, end: 4, words: "[nl]B[hce9]"});
    const room = "A".repeat(MOST_CHARACTERS - 6);
    assert.deepStrictEqual([toSpell(`${room}\u00e9`).words, toSpell(`${room}A\u00e9`)], ["[hce9]", null]);
    assert.deepStrictEqual(toSpell("\ud83d\udea7\u00e9B\ud83d\udea7\u2190C"), {begin: 2, end: 7, words: "[hce9]B\ud83d\udea7[hc2190]"});
  },

  async "the character at an octet"() {
    const found = [0, 1, 3, 4].map((at) => characterAt("A\ud83d\udea7B", at));
    assert.deepStrictEqual(found, ["A", "\ud83d\udea7", "B", ""]);
  },

  async "links"() {
    const long = "A".repeat(MOST_CHARACTERS);
    for (const text of ["", "A", "A B[nl]100%[np]#?&='()*!.~_-", "\ud83d\udea7", long]) {
      assert.strictEqual(textOf(hashOf(text)), text);
      assert(/^(#([A-Za-z0-9]|%[0-9A-Fa-f]{2})+)?$/.test(hashOf(text)));
    }
    assert.deepStrictEqual([hashOf("[nl]."), textOf("#ROAD%20[nl]WORK"), textOf("#")], ["#%5Bnl%5D%2e", "ROAD [nl]WORK", ""]);
    assert.strictEqual(textOf("#A%c3%a9%E2%86%90%7f"), "A[hce9][hc2190][hc7f]");
    for (const wrong of ["#%", "#%zz", "#%ff", "#A%0aB", "#%00", `#${long}A`, `#${long.slice(1)}%c3%a9`]) {
      assert.strictEqual(textOf(wrong), "");
    }
    assert.strictEqual(hashOf("\ud83d"), "");
    for (const [kept, text] of [[["#A", "AB"], "AB"], [["#A", ""], ""], [["#B", "AB"], "A"], [["#A", 1], "A"], [["#A", `${long}A`], "A"], [null, "A"]]) {
      assert.strictEqual(keptText(JSON.stringify(kept), "#A"), text);
    }
  },
};

async function main() {
  // A test that waits for ever ends Node without a word.
  process.exitCode = 1;
  for (const [name, test] of Object.entries(tests)) {
    await test().catch((fault) => {
      console.error(`${name}: ${fault.stack}`);
      process.exit(1);
    });
  }
  process.exitCode = 0;
  console.log(`${Object.keys(tests).length} tests of what the page says pass`);
}

main();
