"use strict";
// What the preview's page does, in a stand-in for a browser: `node page.js FOLDER ONE SEVERAL`, with the folder of the page and the addresses
// of two servers: one of the sign of signs/full-matrix.toml, and one of that and of signs/portable.toml. tests/test_preview.py runs it.

const assert = require("assert");
const {Page} = require("./browser.js");

const [folder, one, several] = process.argv.slice(2);

const TWO_PAGES = "[pt9o2]ONE[np][pt9o2]TWO";

const opened = [];

const open = async (address, settings) => {
  const asked = (path, words) => page.isGone ? Promise.reject(new TypeError("gone")) : fetch(new URL(path, address), words);
  const page = new Page(folder, asked, settings);
  opened.push(page);
  await page.until("a begin", () => page.at("sign").dataset.revision !== undefined && page.at("cells").children.length > 0);
  return page;
};

const kind = (page) => page.at("verdict").dataset.kind;
const isJudged = (page) => page.at("text").dataset.revision === page.at("sign").dataset.revision;

async function judged(page, text, caret) {
  page.type(text, caret);
  await page.until(`${text} is judged`, () => isJudged(page));
}

const shown = (page) => page.at("sign").dataset.page;

// The page that is shown while one still writes: a machine that is busy may answer only after the rest, and then it is typed again.
async function shownWhile(page, text, caret) {
  for (let turn = 0; turn < 20; turn++) {
    const begun = performance.now();
    await judged(page, text, caret);
    if (performance.now() - begun < 1000) {
      return shown(page);
    }
  }
  throw new Error("no answer comes while one writes");
}

const strip = (page) => page.at("strip").children;
const pressed = (page) => strip(page).map((it) => it.getAttribute("aria-pressed"));
const texts = (page, id) => page.at(id).children.map((it) => it.textContent);
const buttonOf = (page, label) => page.top.all().find((it) => it.localName === "button" && it.getAttribute("aria-label") === label);

function hasNames(page) {
  const nameless = page.names().filter(([, name]) => name === "").map(([it]) => `${it.localName}#${it.id}`);
  assert.deepStrictEqual(nameless, []);
}

const tests = {
  async "a page begins"() {
    const page = await open(one);
    assert.deepStrictEqual([page.document.title, kind(page)], ["A message for full-matrix", "empty"]);
    assert(page.at("text").placeholder.startsWith("For example "));
    assert(page.at("list").children.length > 5);
    assert(page.at("list").children.every((item) => item.all().some(({localName}) => localName === "canvas")));
    assert.deepStrictEqual([page.at("strip").hidden, page.at("marks").hidden, page.at("first").hidden], [true, true, true]);
    assert.strictEqual(page.at("font").value, "2");
    hasNames(page);
    return page;
  },

  async "a verdict in words, with the number in small print"() {
    const page = await open(one);
    await judged(page, "ROAD WORK");
    assert.deepStrictEqual([kind(page), page.at("outcome").textContent], ["accepted", "Accepted: 1 page."]);
    await judged(page, "ROAD[x]WORK");
    assert.strictEqual(kind(page), "refused");
    assert(page.at("reason").textContent.length > 5);
    assert.strictEqual(page.at("code").textContent, "unsupportedTag (3) at octet 4");
    assert.strictEqual(page.at("text").getAttribute("aria-invalid"), "true");
    hasNames(page);
  },

  async "fixes as buttons"() {
    const page = await open(one);
    const fixes = () => page.at("fixes").children;
    await judged(page, "ACCIDENT AHEAD SLOW");
    assert.deepStrictEqual([page.at("fixes").hidden, fixes()[0].textContent], [false, "ACCIDENT AHEAD[nl]SLOW"]);
    hasNames(page);
    fixes()[0].click();
    assert.strictEqual(page.at("text").value, "ACCIDENT AHEAD[nl]SLOW");
    await page.until("a verdict", () => isJudged(page) && kind(page) === "accepted");
    assert.deepStrictEqual([page.at("fixes").hidden, fixes().length], [true, 0]);
  },

  async "a slip is marked in the field"() {
    const page = await open(one);
    await judged(page, "ROAD[x]WORK");
    const marks = () => ["before", "at", "after"].map((id) => page.at(id).textContent);
    assert.deepStrictEqual([marks(), page.at("marks").hidden], [["ROAD", "[", "x]WORK"], false]);
    page.at("go").click();
    assert.deepStrictEqual([page.at("text").selectionStart, page.at("text").selectionEnd], [4, 5]);
    // The next key makes it another text, of which nothing is known yet.
    page.type("ROAD[x]WORKS");
    assert.deepStrictEqual([marks(), page.at("marks").hidden], [["", "", ""], true]);
    await page.until("a mark", () => marks()[2] === "x]WORKS");
    await judged(page, "ROAD[n");
    assert.deepStrictEqual([kind(page), page.at("marks").hidden], ["unfinished", true]);
  },

  async "the page of the caret while one writes, and then all"() {
    const page = await open(one);
    assert.deepStrictEqual([await shownWhile(page, TWO_PAGES), page.at("view").value], ["1", "plays"]);
    assert.strictEqual(await shownWhile(page, TWO_PAGES, 8), "0");
    await page.until("the first page goes", () => shown(page) === "off", 5);
    await page.until("the second page", () => shown(page) === "1", 5);
    page.at("play").click();
    const {time} = page.at("sign").dataset;
    await judged(page, `${TWO_PAGES}S`);
    assert.deepStrictEqual([shown(page), page.at("sign").dataset.time], ["0", "0"], time);
  },

  async "who wants nothing to move sees the page of the caret"() {
    const page = await open(one, {still: true});
    assert.strictEqual(page.at("play").textContent, "Play");
    await judged(page, TWO_PAGES);
    assert.deepStrictEqual([page.at("view").value, shown(page)], ["caret", "1"]);
    page.at("text").setSelectionRange(0, 0);
    await page.until("the first page", () => shown(page) === "0");
  },

  async "a strip of pages"() {
    const page = await open(one);
    await judged(page, TWO_PAGES);
    assert.deepStrictEqual([strip(page).map((it) => it.textContent), pressed(page)], [["page 1", "page 2"], ["false", "false"]]);
    strip(page)[0].click();
    assert.deepStrictEqual([pressed(page), page.at("view").value], [["true", "false"], "0"]);
    await page.until("the first page alone", () => isJudged(page) && shown(page) === "0");
    assert.deepStrictEqual(strip(page).map((it) => it.getAttribute("aria-current")), ["true", "false"]);
    strip(page)[0].click();
    assert.deepStrictEqual([pressed(page), page.at("view").value], [["false", "false"], "plays"]);
    hasNames(page);
    await judged(page, "ONE");
    assert.strictEqual(page.at("strip").hidden, true);
  },

  async "buttons for tags"() {
    const page = await open(one);
    const text = page.at("text");
    await judged(page, "A");
    page.at("new-line").click();
    page.at("new-page").click();
    page.at("flash").click();
    assert.deepStrictEqual([text.value, text.selectionStart], ["A[nl][np][fl][/fl]", 13]);
    const written = async (label, words) => {
      await judged(page, "AB");
      text.setSelectionRange(1, 2);
      buttonOf(page, label).click();
      assert.deepStrictEqual([text.value, text.value.slice(text.selectionStart, text.selectionEnd)], [words, "B"]);
    };
    await written("Colour: red", "A[cf1]B[cf]");
    await written("Font: font 1", "A[fo1]B[fo]");
    await written("Justify line: right", "A[jl4]B");
    await written("Justify page: top", "A[jp2]B");
    await written("Page time: 2 s", "A[pt20]B");
    await judged(page, "A");
    buttonOf(page, "Colour: green").click();
    assert.strictEqual(text.value, "A[cf3]");
    const groups = page.at("tags").children.filter((it) => it.className === "opener"), rows = page.at("choices").children;
    assert.deepStrictEqual(groups.map(({textContent}) => textContent), ["Colour", "Font", "Justify line", "Justify page", "Page time"]);
    const opened = () => groups.map((it, place) => [it.getAttribute("aria-expanded") === "true", !rows[place].hidden]);
    const only = (place) => groups.map((_, other) => [other === place, other === place]);
    assert.deepStrictEqual(opened(), only(-1));
    for (const place of [0, 3]) {
      groups[place].click();
      assert.deepStrictEqual(opened(), only(place));
    }
    buttonOf(page, "Justify page: top").click();
    assert.deepStrictEqual([opened(), text.value], [only(-1), "A[cf3][jp2]"]);
  },

  async "keys, and lines that are pasted"() {
    const page = await open(one);
    const text = page.at("text");
    let stopped = 0;
    const event = (type, more) => text.dispatchEvent({type, preventDefault: () => { stopped += 1; }, ...more});
    await judged(page, "A");
    event("keydown", {key: "Enter"});
    event("keydown", {key: "Enter", ctrlKey: true});
    event("keydown", {key: "Enter", isComposing: true});
    event("keydown", {key: "B"});
    assert.deepStrictEqual([text.value, stopped], ["A[nl][np]", 2]);
    event("paste", {clipboardData: {getData: () => " ONE \n TWO\r\n"}});
    assert.deepStrictEqual([text.value, stopped], ["A[nl][np]ONE[nl]TWO", 3]);
    page.type("A\u00e9");
    await page.until("a number", () => text.value === "A[hce9]");
    assert.strictEqual(text.selectionStart, 7);
  },

  async "a link"() {
    const page = await open(one, {hash: "#ROAD%20[nl]WORK"});
    assert.deepStrictEqual([page.at("text").value, kind(page)], ["ROAD [nl]WORK", "accepted"]);
    await judged(page, "A[nl]B");
    await page.until("its link", () => page.links[page.links.length - 1] === "/#A%5Bnl%5DB");
  },

  async "a server that is gone"() {
    const page = await open(one);
    await judged(page, "ROAD");
    page.isGone = true;
    page.type("ROADS");
    await page.until("a text that isn't judged", () => kind(page) === "gone");
    assert.deepStrictEqual([page.at("lost").hidden, page.at("sign").classes.has("stale")], [false, true]);
    page.isGone = false;
    await page.until("a verdict", () => kind(page) === "accepted" && page.at("lost").hidden);
    assert.strictEqual(page.at("sign").classes.has("stale"), false);
  },

  async "the font at the caret"() {
    const page = await open(one);
    await judged(page, "A[fo1]B");
    await page.until("the first font", () => page.at("font").value === "1");
    page.at("text").setSelectionRange(0, 0);
    await page.until("the default font", () => page.at("font").value === "2");
    await page.until("its characters", () => page.at("use-font").textContent === "Write [fo2]");
    page.choose("font", "1");
    await judged(page, "AB[fo1]B", 1);
    assert.strictEqual(page.at("font").value, "1");
  },

  async "templates"() {
    const page = await open(one);
    const item = page.at("list").children[0];
    item.children[0].click();
    assert.strictEqual(page.at("text").value, item.textContent);
    await page.until("a verdict", () => isJudged(page) && kind(page) === "accepted");
  },

  async "a file in PNG"() {
    const page = await open(one);
    await judged(page, TWO_PAGES);
    page.at("save-png").click();
    await page.until("a file", () => page.at("status").textContent === "full-matrix.png is saved.");
    const octets = Buffer.from(await page.blobs[0].arrayBuffer());
    assert.deepStrictEqual([octets.subarray(1, 4).toString(), page.saved[0].download], ["PNG", "full-matrix.png"]);
    await judged(page, "[x]");
    page.at("save-png").click();
    await page.until("no file", () => page.at("status").textContent.startsWith("No picture: "));
    assert.strictEqual(page.blobs.length, 1);
  },

  async "a file in GIF, and a copy"() {
    const page = await open(one);
    await judged(page, TWO_PAGES);
    page.at("save").click();
    await page.until("a file", () => page.at("status").textContent === "full-matrix.gif is saved.");
    const octets = Buffer.from(await page.blobs[0].arrayBuffer());
    assert.strictEqual(octets.subarray(0, 6).toString(), "GIF89a");
    page.at("copy").click();
    await page.until("a copy", () => page.at("status").textContent === "The message is copied.");
    assert.deepStrictEqual(page.copied, [TWO_PAGES]);
  },

  async "what was accepted before"() {
    const kept = {};
    const page = await open(one, {kept});
    assert.strictEqual(page.at("nothing").hidden, false);
    await judged(page, "ROAD");
    page.at("copy").click();
    await page.until("a text that is kept", () => texts(page, "kept").join() === "ROAD");
    assert.deepStrictEqual(page.copied, ["ROAD"]);
    await judged(page, "ROAD[x]");
    page.at("copy").click();
    await judged(page, "ROAD WORK");
    await page.until("a text that stood", () => texts(page, "kept").join() === "ROAD WORK,ROAD", 6);
    const other = await open(one, {kept});
    assert.deepStrictEqual(texts(other, "kept"), ["ROAD WORK", "ROAD"]);
    other.at("kept").children[1].children[0].click();
    assert.strictEqual(other.at("text").value, "ROAD");
    hasNames(other);
    other.at("forget").click();
    assert.deepStrictEqual([texts(other, "kept"), kept["latsefur.accepted"], other.at("forget").hidden], [[], "[]", true]);
  },

  async "several signs"() {
    const page = await open(several);
    assert.strictEqual(page.document.title, "A message for full-matrix and portable");
    const sections = page.at("signs").children;
    assert.deepStrictEqual(sections.map((it) => it.children[0].textContent), [
      "full-matrix: 144 by 48 pixels, ten colours", "portable: 50 by 24 pixels, one colour",
    ]);
    const [small] = sections.slice(1), canvas = small.all().find(({localName}) => localName === "canvas");
    const said = () => small.all().filter((it) => ["outcome", "reason", "code"].includes(it.className)).map((it) => it.textContent);
    await judged(page, "CONGESTION[nl]AHEAD");
    assert.deepStrictEqual([kind(page), said()[0], said()[2]], ["accepted", "Refused.", "textTooBig (5) at octet 8"]);
    assert.deepStrictEqual([page.at("sign").classes.has("stale"), canvas.classes.has("stale")], [false, true]);
    await judged(page, "ROAD[nl]WORK");
    assert.deepStrictEqual([kind(page), ...said().slice(0, 2)], ["accepted", "Accepted: 1 page.", ""]);
    assert.strictEqual(page.at("outcome").textContent, "full-matrix: Accepted: 1 page.");
    assert.deepStrictEqual([canvas.classes.has("stale"), canvas.dataset.page], [false, "0"]);
    await judged(page, "[cf1]ROAD[nl]WORK[x]");
    assert.deepStrictEqual([kind(page), said()[0]], ["refused", "Refused."]);
    assert.deepStrictEqual([await shownWhile(page, TWO_PAGES), canvas.dataset.page], ["1", "1"]);
    await page.until("both play", () => shown(page) === "0" && canvas.dataset.page === "0", 5);
    // Only what both have has a button.
    assert.strictEqual(buttonOf(page, "Colour: red"), undefined);
    assert(page.at("list").children.length > 0);
    hasNames(page);
  },
};

async function main() {
  // A test that waits for ever ends Node without a word.
  process.exitCode = 1;
  for (const [name, test] of Object.entries(tests)) {
    await test().catch((fault) => {
      console.error(`${name}: ${fault.stack}`);
      process.exit(1);
    });
    opened.splice(0).forEach((page) => page.close());
  }
  console.log(`${Object.keys(tests).length} tests of what the page does pass`);
  process.exit(0);
}

main();
