"use strict";
// What helps one to write: buttons for tags, the characters of the fonts, templates, and what was accepted before.

// ---- Tags.

// The buttons of the tags that the signs have. Those of one group stand in a row of their own, which the group's button opens.
function listTags(tags, write) {
  const groups = [...new Set(tags.map(({group}) => group))], rows = [];
  byId("tags").replaceChildren(...groups.flatMap((group) => {
    const own = tags.filter((tag) => tag.group === group);
    if (group === "") {
      return own.map((tag) => tagButton(tag, write));
    }
    const {opener, row} = tagGroup(group, own, write);
    rows.push(row);
    return [opener];
  }));
  byId("choices").replaceChildren(...rows);
}

const idOf = (name) => name.toLowerCase().replace(" ", "-");

function tagButton(tag, write) {
  const element = button(tag.name, () => write(tag));
  element.id = idOf(tag.name);
  element.title = `Write ${tag.open}${tag.close}`;
  return element;
}

function tagGroup(group, tags, write) {
  const row = made("div", {id: `choices-${idOf(group)}`, className: "choices", hidden: true}, ...tags.map((tag) => {
    const element = button("", () => {
      openGroup(null);
      write(tag);
    });
    element.append(...(group === "Colour" ? [swatch(tag.name), tag.name] : [tag.name]));
    element.setAttribute("aria-label", `${group}: ${tag.name}`);
    element.title = `Write ${tag.open}`;
    return element;
  }));
  row.setAttribute("role", "group");
  row.setAttribute("aria-label", group);
  const opener = button(group, () => openGroup(row.hidden ? row : null));
  opener.className = "opener";
  opener.setAttribute("aria-expanded", "false");
  opener.setAttribute("aria-controls", row.id);
  return {opener, row};
}

// Opens the row of a group, and closes any other.
function openGroup(opened) {
  [...byId("choices").children].forEach((row) => { row.hidden = row !== opened; });
  [...byId("tags").children].filter((one) => one.getAttribute("aria-controls")).forEach((opener) =>
    opener.setAttribute("aria-expanded", String(opened !== null && opener.getAttribute("aria-controls") === opened.id)));
}

function swatch(name) {
  const element = made("span", {className: "swatch"});
  element.style.background = SHINE[Math.max(0, sign.colours.indexOf(name))];
  return element;
}

// ---- Characters.

// Writes, and stays where one has scrolled to: on a phone the sign is in sight there, and the next character is below the finger.
function inPlace(write) {
  const {scrollX, scrollY} = window;
  write();
  window.scrollTo(scrollX, scrollY);
}

function cell({number, text: given, rows}) {
  const words = given.length === 1 ? `${given}, character ${number}` : `character ${number}, ${given}`;
  const element = button("", () => inPlace(() => insert(given)));
  Object.assign(element, {tabIndex: -1, title: words});
  element.setAttribute("aria-label", given === " " ? `space, character ${number}` : words);
  if (rows.length) {
    const small = document.createElement("canvas");
    const drawn = new Dots(small, rows[0].length, rows.length, sign.classic);
    drawn.fit(4 * rows[0].length, 3);
    drawn.draw(rows.join(""));
    element.append(small);
  } else {
    element.textContent = given === " " ? "\u2423" : given;
  }
  return element;
}

async function showFont() {
  const number = byId("font").value;
  byId("use-font").textContent = `Write [fo${number}]`;
  const {characters} = await patiently("font", {font: Number(number)}, (why) => asking.lose(why));
  if (number !== byId("font").value) {
    return;
  }
  const cells = characters.map(cell);
  if (cells.length) {
    cells[0].tabIndex = 0;
  }
  byId("cells").replaceChildren(...cells);
}

// The table shows the font at the caret, once the caret stands in another one. Until then it shows what one has chosen.
let fontAtCaret = null;

function followFont(number) {
  if (number !== null && number !== undefined && number !== fontAtCaret) {
    fontAtCaret = number;
    if (byId("font").value !== String(number)) {
      byId("font").value = String(number);
      showFont();
    }
  }
}

// One stop of the tab key; the arrow keys go from button to button.
function walk(event) {
  const cells = [...byId("cells").children], here = cells.indexOf(document.activeElement);
  if (here < 0) {
    return;
  }
  const {offsetTop, offsetLeft} = cells[here];
  const inRow = (rows, of) => rows.findLast((other) => other.offsetTop === of.offsetTop && other.offsetLeft <= offsetLeft) ?? of;
  const below = cells.slice(here).find((other) => other.offsetTop > offsetTop);
  const above = cells.slice(0, here).findLast((other) => other.offsetTop < offsetTop);
  const next = {
    ArrowRight: cells[here + 1], ArrowLeft: cells[here - 1], Home: cells[0], End: cells[cells.length - 1],
    ArrowDown: below && inRow(cells, below), ArrowUp: above && inRow(cells, above),
  };
  if (event.key in next) {
    event.preventDefault();
    const to = next[event.key] ?? cells[here];
    cells[here].tabIndex = -1;
    to.tabIndex = 0;
    to.focus();
  }
}

// ---- Templates, and what was accepted before.

function template({text: words, picture}) {
  const element = button("", () => inPlace(() => replace(words)));
  element.append(...(picture === "" ? [] : [smallSign(sign, picture).canvas]), made("span", {}, words));
  return made("li", {}, element);
}

// Where this browser keeps what was accepted.
const KEPT = "latsefur.accepted";

const past = new Past([]);

function recall() {
  try {
    past.texts = pastOf(localStorage.getItem(KEPT));
  } catch {
    // The browser keeps nothing for this page.
  }
}

function listPast() {
  byId("kept").replaceChildren(...past.texts.map((words) => made("li", {}, button(words, () => inPlace(() => replace(words))))));
  byId("nothing").hidden = past.texts.length > 0;
  byId("forget").hidden = past.texts.length === 0;
}

// Changes what is kept. Another page of this browser may have kept more since.
function changePast(change) {
  recall();
  change();
  try {
    localStorage.setItem(KEPT, JSON.stringify(past.texts));
  } catch {
    // It is there until the page is left.
  }
  listPast();
}
