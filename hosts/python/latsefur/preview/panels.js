"use strict";
// Signs as they are drawn: round dots on a canvas, a panel for each sign, and small signs on buttons.

// The colours as they shine, between the dots first; those of `signctl picture`. The one colour of a monochrome sign is amber.
const BETWEEN = "rgb(12,12,12)";
const SHINE = ["40,40,40", "255,32,32", "255,240,32", "32,224,64", "32,224,240", "64,96,255", "240,64,240", "255,255,255", "255,128,16",
               "255,176,0"].map((shares) => `rgb(${shares})`);

// The largest dot in CSS pixels, the largest part of the window's height that a sign takes, so that what is said of a message is in sight without
// scrolling, and what a phone is, as in page.css.
const LARGEST = 16;
const HIGHEST = 0.4;
const PHONE = "(max-width: 40rem), (max-height: 32rem)";

// The width of a small sign in CSS pixels, and its largest dot.
const SMALL = 144;
const SMALL_DOT = 4;

const byId = (id) => document.getElementById(id);

// An element with these properties and these children.
function made(tag, properties = {}, ...children) {
  const element = Object.assign(document.createElement(tag), properties);
  element.append(...children);
  return element;
}

// A button that does something.
function button(words, act) {
  const element = made("button", {type: "button"}, words);
  element.addEventListener("click", act);
  return element;
}

// A picture as round dots. It draws only the dots that differ from those that are there.
class Dots {
  constructor(canvas, width, height, classic) {
    Object.assign(this, {canvas, width, height, shine: classic ? SHINE : [SHINE[0], ...Array(9).fill(SHINE[9])]});
  }

  // Sizes the dots for a room, which they fill if they may.
  fit(room, largest, fills = false) {
    const {pitch, shown} = fitted(room, this.width, window.devicePixelRatio || 1, largest, fills);
    this.pitch = pitch;
    this.canvas.width = pitch * this.width;
    this.canvas.height = pitch * this.height;
    this.canvas.style.width = `${shown}px`;
    this.tiles = document.createElement("canvas");
    this.tiles.width = this.pitch * this.shine.length;
    this.tiles.height = this.pitch;
    const pen = this.tiles.getContext("2d");
    pen.fillStyle = BETWEEN;
    pen.fillRect(0, 0, this.tiles.width, this.pitch);
    this.shine.forEach((colour, number) => {
      pen.fillStyle = colour;
      if (this.pitch < 4) {
        pen.fillRect(number * this.pitch, 0, this.pitch, this.pitch);
      } else {
        pen.beginPath();
        pen.arc((number + 0.5) * this.pitch, this.pitch / 2, this.pitch * Math.sqrt(3) / 4, 0, 2 * Math.PI);
        pen.fill();
      }
    });
    this.there = "";
  }

  // A picture has a digit for each pixel, the number of its colour.
  draw(picture) {
    const pen = this.canvas.getContext("2d"), size = this.pitch;
    for (let place = 0; place < picture.length; place++) {
      if (picture[place] !== this.there[place]) {
        const x = place % this.width * size, y = Math.floor(place / this.width) * size;
        pen.drawImage(this.tiles, picture[place] * size, 0, size, size, x, y, size, size);
      }
    }
    this.there = picture;
  }
}

// A small sign that shows a picture. Its canvas says nothing to a screen reader: the words beside it do.
function smallSign({width, height, classic}, picture) {
  const drawn = new Dots(document.createElement("canvas"), width, height, classic);
  drawn.canvas.setAttribute("aria-hidden", "true");
  drawn.fit(SMALL, SMALL_DOT, true);
  drawn.draw(picture);
  return drawn;
}

const sizeOf = ({width, height, classic}) => `${width} by ${height} pixels, ${classic ? "ten colours" : "one colour"}`;

// What stands above one of several signs. On a phone there is room for its name alone.
const headOf = (sign) => [sign.name, made("span", {}, `: ${sizeOf(sign)}`)];

// A sign of the page: its picture, and what is said of the message on it. `parts` are its elements; those of the first sign stand in page.html.
class Panel {
  constructor(sign, parts, {goTo, replace}) {
    Object.assign(this, {sign, parts, goTo, replace, film: null, holds: false, words: null, lastWords: ""});
    this.dots = new Dots(parts.canvas, sign.width, sign.height, sign.classic);
  }

  fit() {
    const was = this.dots.there, style = getComputedStyle(this.parts.case);
    const room = this.parts.case.clientWidth - parseFloat(style.paddingLeft) - parseFloat(style.paddingRight);
    // On a phone, and beside another sign, it fills its panel. On a phone it leaves half of the height to the message.
    const isPhone = window.matchMedia(PHONE).matches, most = (isPhone ? 0.5 : HIGHEST) * window.innerHeight / this.sign.height;
    this.dots.fit(room, isPhone ? most : Math.min(LARGEST, most), isPhone || this.sign.several);
    this.dots.draw(was || "0".repeat(this.sign.width * this.sign.height));
  }

  // Draws what its film shows at a time, and gives the frame.
  draw(time) {
    const frame = this.film.at(time), {canvas} = this.parts;
    if (frame.picture !== this.dots.there) {
      this.dots.draw(frame.picture);
    }
    Object.assign(canvas.dataset, {time, page: frame.page ?? "off"});
    const label = frame.page === null ? `${this.called()} in the off time of a page`
      : `${this.called()}, ${pageOf(frame, this.film)}, of the message ${this.film.text}`;
    if (canvas.getAttribute("aria-label") !== label) {
      canvas.setAttribute("aria-label", label);
    }
    return frame;
  }

  called() {
    return this.sign.several ? `The sign ${this.sign.name}` : "The sign";
  }

  // Says these words of the message. `holds` is whether the picture is of it, and `isSeen` whether it is the one that is wanted. It gives whether
  // the words are others than before.
  tell(words, holds, isSeen) {
    const {canvas} = this.parts;
    Object.assign(this, {holds, words});
    this.dim(!holds || !isSeen);
    canvas.classList.toggle("resting", words.kind === "unfinished");
    const written = JSON.stringify(words), isOther = written !== this.lastWords;
    if (isOther) {
      this.lastWords = written;
      this.parts.verdict.dataset.kind = words.kind;
      this.write(words);
    }
    return isOther;
  }

  dim(isStale) {
    this.parts.canvas.classList.toggle("stale", isStale);
  }

  write(words) {
    for (const name of ["outcome", "reason", "code"]) {
      this.parts[name].textContent = words[name];
      this.parts[name].hidden = words[name] === "";
    }
    // Below the field it isn't seen of which sign this is said.
    if (this.sign.several && !this.parts.section) {
      this.parts.outcome.textContent = `${this.sign.name}: ${words.outcome}`;
    }
    const fixes = words.fixes.map((fix) => fixButton(partsOfFix(fix, words.text), () => this.replace(fix.text)));
    this.parts.fixes.hidden = fixes.length === 0;
    this.parts.fixes.replaceChildren("Write instead:", ...fixes);
    this.parts.go.hidden = words.at === null;
    if (words.at !== null) {
      this.parts.go.textContent = `Go to octet ${words.at}`;
      this.parts.go.dataset.at = words.at;
    }
    this.parts.warnings.hidden = words.warnings.length === 0;
    this.parts.warnings.replaceChildren(...words.warnings.map(({octet, text: words}) =>
      made("li", {}, `${words} `, button(`Go to octet ${octet}`, () => this.goTo(octet)))));
  }
}

// A button that writes a text in place of the one that is refused. What is new in it stands out.
function fixButton(parts, act) {
  const element = button("", act);
  element.append(...parts.map(({words, isNew}) => isNew ? made("b", {}, words) : words));
  return element;
}

const pageOf = (frame, film) => frame.page === null ? "off time" : `page ${frame.page + 1} of ${film.pages}`;

// The panel of another sign, with elements of its own.
function otherPanel(sign, acts) {
  const parts = {
    canvas: made("canvas"), outcome: made("p", {className: "outcome"}), reason: made("p", {className: "reason", hidden: true}),
    code: made("small", {className: "code", hidden: true}), warnings: made("ul", {className: "warnings", hidden: true}),
    go: made("button", {type: "button", hidden: true}), fixes: made("div", {className: "fixes", hidden: true}),
  };
  parts.canvas.setAttribute("role", "img");
  parts.canvas.setAttribute("aria-label", `The sign ${sign.name} is dark`);
  parts.warnings.setAttribute("aria-label", `Warnings of ${sign.name}`);
  parts.fixes.setAttribute("role", "group");
  parts.fixes.setAttribute("aria-label", `What ${sign.name} takes instead`);
  parts.go.addEventListener("click", () => acts.goTo(Number(parts.go.dataset.at)));
  parts.case = made("div", {className: "case"}, parts.canvas);
  const told = made("p", {className: "told"}, parts.code, " ", parts.go);
  parts.verdict = made("div", {className: "verdict"}, parts.outcome, parts.reason, parts.fixes, told, parts.warnings);
  parts.section = made("section", {className: "other"}, made("h2", {}, ...headOf(sign)), parts.case, parts.verdict);
  parts.section.setAttribute("aria-label", `The sign ${sign.name}`);
  return new Panel(sign, parts, acts);
}
