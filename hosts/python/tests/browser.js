"use strict";
// A stand-in for a browser, as far as the preview's page needs one: elements with their attributes, texts, values and listeners, and no layout.
// What the page draws on a canvas is counted, and nothing is seen.

const fs = require("fs");
const path = require("path");
const vm = require("vm");

const USED = new Set(["button", "select", "textarea", "input"]);
const EMPTY = new Set(["meta", "link", "input", "br"]);
const REFLECTED = ["id", "title", "type", "href", "download", "placeholder"];

class Words {
  constructor(data) {
    this.data = String(data);
  }

  get textContent() {
    return this.data;
  }
}

class Element {
  constructor(page, localName) {
    Object.assign(this, {page, localName, attributes: new Map(), nodes: [], parentElement: null, listeners: {}, style: {}, classes: new Set()});
    Object.assign(this, {selectionStart: 0, selectionEnd: 0, scrollTop: 0, clientWidth: 600, scrollHeight: 60, offsetTop: 0, offsetLeft: 0, pen: 0});
    this.dataset = new Proxy({}, {set: (kept, name, value) => Reflect.set(kept, name, String(value))});
    this.classList = {
      toggle: (name, force = !this.classes.has(name)) => force ? this.classes.add(name) : this.classes.delete(name),
      contains: (name) => this.classes.has(name),
    };
    this.written = "";
    this.chosen = null;
  }

  get children() {
    return this.nodes.filter((node) => node instanceof Element);
  }

  get options() {
    return this.children;
  }

  get textContent() {
    return this.nodes.map((node) => node.textContent).join("");
  }

  set textContent(words) {
    this.replaceChildren(...(words === "" ? [] : [words]));
  }

  get className() {
    return [...this.classes].join(" ");
  }

  set className(names) {
    this.classes = new Set(names.split(" "));
  }

  get hidden() {
    return this.attributes.has("hidden");
  }

  set hidden(is) {
    if (is) {
      this.attributes.set("hidden", "");
    } else {
      this.attributes.delete("hidden");
    }
  }

  // A select has the value of the option that is chosen, and nothing if there is no such option.
  get value() {
    if (this.localName !== "select") {
      return this.localName === "option" ? this.attributes.get("value") : this.written;
    }
    return this.options.includes(this.chosen) ? this.chosen.value : "";
  }

  set value(value) {
    if (this.localName === "option") {
      this.attributes.set("value", String(value));
    } else if (this.localName === "select") {
      this.chosen = this.options.find((option) => option.value === String(value)) ?? null;
    } else {
      this.written = String(value);
    }
  }

  append(...nodes) {
    for (const node of nodes) {
      const added = node instanceof Element ? node : new Words(node);
      if (added instanceof Element) {
        added.parentElement = this;
      }
      this.nodes.push(added);
    }
  }

  replaceChildren(...nodes) {
    this.nodes = [];
    this.append(...nodes);
    this.chosen = this.localName === "select" ? this.options[0] ?? null : null;
  }

  setAttribute(name, value) {
    this.attributes.set(name, String(value));
  }

  getAttribute(name) {
    return this.attributes.get(name) ?? null;
  }

  removeAttribute(name) {
    this.attributes.delete(name);
  }

  addEventListener(kind, act) {
    (this.listeners[kind] ??= []).push(act);
  }

  dispatchEvent(event) {
    (this.listeners[event.type] ?? []).forEach((act) => act(event));
  }

  click() {
    if (this.localName === "a") {
      this.page.saved.push(this);
    }
    this.dispatchEvent({type: "click"});
  }

  focus() {
    this.page.document.activeElement = this;
  }

  // The caret, of which the page is told.
  setSelectionRange(begin, end) {
    const most = this.written.length;
    Object.assign(this, {selectionStart: Math.min(begin, most), selectionEnd: Math.min(end, most)});
    this.page.told("selectionchange");
  }

  select() {
    this.setSelectionRange(0, this.written.length);
  }

  setRangeText(words, begin, end) {
    this.written = this.written.slice(0, begin) + words + this.written.slice(end);
    this.setSelectionRange(begin + words.length, begin + words.length);
  }

  getContext() {
    const count = () => { this.pen += 1; };
    return {fillRect: count, beginPath() {}, arc() {}, fill() {}, drawImage: count};
  }

  // All elements below this one, and itself.
  all() {
    return [this, ...this.children.flatMap((child) => child.all())];
  }
}

for (const name of REFLECTED) {
  Object.defineProperty(Element.prototype, name, {
    get() { return this.attributes.get(name) ?? ""; },
    set(value) { this.attributes.set(name, String(value)); },
  });
}

// Reads a page: what stands in it, without what a browser would mend.
function elementsOf(page, html) {
  const top = new Element(page, "top");
  let at = top;
  for (const [, words, close, name, attributes] of html.matchAll(/([^<]+)|<(\/?)([a-z0-9]+)((?:\s+[a-z-]+(?:="[^"]*")?)*)\s*>|<!doctype html>/g)) {
    if (words !== undefined) {
      at.append(words);
    } else if (close) {
      at = at.parentElement;
    } else if (name) {
      const element = new Element(page, name);
      for (const [, key, value] of attributes.matchAll(/([a-z-]+)(?:="([^"]*)")?/g)) {
        element.attributes.set(key, value ?? "");
      }
      element.className = element.getAttribute("class") ?? "";
      at.append(element);
      at = EMPTY.has(name) ? at : element;
    }
  }
  if (at !== top) {
    throw new Error(`${at.localName} isn't closed`);
  }
  return top;
}

// A page of the folder that holds it, whose server is asked by `fetch(path, words)`.
class Page {
  constructor(folder, fetch, {hash = "", kept = {}, still = false} = {}) {
    Object.assign(this, {saved: [], blobs: [], copied: [], links: [], kept, listeners: {}, isGone: false, isClosed: false});
    this.document = {
      documentElement: {style: {setProperty() {}}},
      activeElement: null, title: "", execCommand: () => false, createElement: (name) => new Element(this, name),
      getElementById: (id) => this.at(id), addEventListener: (kind, act) => { (this.listeners[kind] ??= []).push(act); },
    };
    this.top = elementsOf(this, fs.readFileSync(path.join(folder, "page.html"), "utf8"));
    const scripts = this.top.all().filter(({localName}) => localName === "script").map((script) => script.getAttribute("src"));
    const source = scripts.map((name) => fs.readFileSync(path.join(folder, name), "utf8")).join("\n");
    vm.runInNewContext(source, this.globals(fetch, hash, still), {filename: scripts.join("+")});
  }

  globals(fetch, hash, still) {
    const page = this;
    const globals = {
      document: this.document, performance, console, AbortController, AbortSignal, Event, setTimeout, clearTimeout,
      fetch: (...words) => this.isClosed ? new Promise(() => {}) : fetch(...words),
      requestAnimationFrame: (act) => this.isClosed || setTimeout(act, 16),
      location: {hash, port: "1", pathname: "/", reload: () => { this.reloaded = true; }},
      history: {replaceState: (_, __, link) => this.links.push(link)},
      navigator: {clipboard: {writeText: async (words) => { this.copied.push(words); }}},
      localStorage: {getItem: (name) => this.kept[name] ?? null, setItem: (name, words) => { this.kept[name] = words; }},
      CSS: {supports: () => true},
      URL: {createObjectURL: (blob) => `blob:${this.blobs.push(blob)}`, revokeObjectURL() {}},
      getComputedStyle: () => ({paddingLeft: "0px", paddingRight: "0px"}),
      matchMedia: (what) => ({matches: still && what.includes("reduced-motion")}),
      devicePixelRatio: 1, innerHeight: 800, scrollX: 0, scrollY: 0, scrollTo() {}, addEventListener() {},
      Option: function Option(words, value) {
        const option = new Element(page, "option");
        option.append(words);
        option.value = value;
        return option;
      },
    };
    return Object.assign(globals, {window: globals});
  }

  // Nothing is drawn or asked any more.
  close() {
    this.isClosed = true;
  }

  at(id) {
    return this.top.all().find((element) => element.id === id) ?? null;
  }

  told(kind) {
    (this.listeners[kind] ?? []).forEach((act) => act({type: kind}));
  }

  // Types a text in place of what is there: the caret stands at its end, or where it is said to.
  type(words, caret = words.length) {
    const text = this.at("text");
    Object.assign(text, {written: words, selectionStart: caret, selectionEnd: caret});
    text.focus();
    text.dispatchEvent({type: "input"});
  }

  choose(id, value) {
    this.at(id).value = value;
    this.at(id).dispatchEvent({type: id === "time" ? "input" : "change"});
  }

  // What all that can be used is called, and each picture that is told of, if it isn't hidden.
  names() {
    const labels = new Map(this.top.all().filter(({localName}) => localName === "label").map((it) => [it.getAttribute("for"), it.textContent]));
    const used = this.top.all().filter((it) => !it.hidden && (USED.has(it.localName) || it.getAttribute("role") === "img"));
    return used.map((it) => [it, (it.getAttribute("aria-label") ?? labels.get(it.id) ?? it.textContent).trim()]);
  }

  async until(what, there, seconds = 20) {
    const end = performance.now() + 1000 * seconds;
    while (!there()) {
      if (performance.now() > end) {
        throw new Error(`the page doesn't come to this: ${what}`);
      }
      await new Promise((resolve) => setTimeout(resolve, 5));
    }
  }
}

module.exports = {Page};
