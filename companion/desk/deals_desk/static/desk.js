// What the browser does: it checks conditions while they are typed, says how rare hands are, and follows searches.
// Everything else works without it.
"use strict";

const TYPING = 60; // milliseconds after a key before a text is checked
const RESTING = 400; // .. before it is counted how rare the hands are
const SECOND = 1000;
const SPEED = 5e6; // deals a second, at the least

const make = (name, text, css) => Object.assign(document.createElement(name), {textContent: text, className: css || ""});

async function ask(path, form) {
  const response = await fetch(path, {method: "POST", body: new URLSearchParams(form)});
  if (!response.ok) throw new Error(response.statusText);
  return response.json();
}

// Marks the fault in the text itself, by a layer below it.
function mark(area, answer) {
  const layer = area.previousElementSibling;
  if (!answer || answer.at === null) return layer.replaceChildren();
  const end = answer.at + Math.max(answer.length, 1);
  const fault = area.value.slice(answer.at, end) || " ";
  layer.replaceChildren(area.value.slice(0, answer.at), make("mark", fault), area.value.slice(end));
  layer.scrollTop = area.scrollTop;
}

// A text's first characters as the browser counts them, which takes some of them for two.
const units = (text, count) => [...text].slice(0, count).join("").length;

// The answer with its places in a text. They were told in characters, without the blanks before it.
function placed(answer, text) {
  if (!answer || !Number.isInteger(answer.at)) return answer;
  const told = text.trimStart(), blanks = text.length - told.length;
  const at = units(told, answer.at), end = units(told, answer.at + answer.length);
  return {...answer, at: blanks + at, length: end - at};
}

// The text with a word at the fault: in its place if it is an unknown word, else before it.
function withWord(text, answer, word) {
  const isUnknown = answer.line.endsWith("unknown word");
  const after = text.slice(answer.at + (isUnknown ? answer.length : 0));
  const before = text.slice(0, answer.at);
  const gap = (left, right) => /\w$/.test(left) && /^\w/.test(right) ? " " : "";
  return before + gap(before, word) + word + gap(word, after) + after;
}

function change(area, text) {
  area.value = text;
  area.focus();
  area.dispatchEvent(new Event("input", {bubbles: true}));
}

function button(text, css, act) {
  const made = make("button", text, css);
  made.type = "button";
  made.addEventListener("click", act);
  return made;
}

// What is told below a text that is refused.
function refusal(area, answer) {
  const box = make("div", "", "refusal");
  box.id = area.id + "-refusal";
  box.append(make("p", answer.line));
  if (answer.excerpt) box.append(make("pre", answer.excerpt));
  if (answer.text) box.append(make("p", answer.text, "help"));
  if (answer.mended !== null)
    box.append(button("write " + answer.mend, "mend", () => change(area, answer.mended)));
  if (answer.could.length) {
    const chips = make("div", "possible here: ", "chips muted");
    for (const word of answer.could)
      chips.append(button(word, "chip", () => change(area, withWord(area.value, answer, word))));
    box.append(chips);
  }
  return box;
}

function show(area, answer) {
  const field = area.closest(".field");
  field.querySelectorAll(".refusal, .note").forEach((old) => old.remove());
  field.parentElement.querySelectorAll(":scope > .note").forEach((old) => old.remove());
  if (answer && answer.note) {
    field.append(Object.assign(make("p", answer.note, "note"), {role: "status"}));
    answer = null;
  }
  area.toggleAttribute("aria-invalid", Boolean(answer));
  if (answer) {
    area.setAttribute("aria-invalid", "true");
    area.setAttribute("aria-describedby", area.id + "-refusal");
    field.append(refusal(area, answer));
  } else {
    area.removeAttribute("aria-describedby");
  }
  mark(area, answer);
}

// Answers to older texts are thrown away.
function latest(act) {
  let last = 0;
  return async (...given) => {
    const mine = ++last;
    const answer = await act(...given);
    return mine === last ? answer : undefined;
  };
}

function time(seconds) {
  if (seconds < 1) return "less than a second";
  if (seconds < 90) return `about ${Math.ceil(seconds)} seconds`;
  if (seconds < 5400) return `about ${Math.ceil(seconds / 60)} minutes`;
  return `about ${Math.ceil(seconds / 3600)} hours`;
}

function told(rare, boards) {
  if (!rare.found) return `None of ${rare.tried.toLocaleString("en")} deals has such hands: that is for a long search, if there are any.`;
  const one = rare.tried / rare.found;
  const often = one < 1.5 ? "Most deals have such hands" : `One deal in ${Math.round(one).toLocaleString("en")} has such hands`;
  return boards > 0 ? `${often}: ${boards} boards take ${time(boards * one / SPEED)}.` : `${often}.`;
}

function watchText(area) {
  const line = area.name === "where" ? area.form.querySelector("[data-rarity]") : null;
  const check = latest((text) => ask("/check/" + area.dataset.check, {text}));
  const count = latest((text) => ask("/rarity", {text}));
  let typing = 0, resting = 0, checked = "";
  const rest = async () => {
    const text = area.value;
    const rare = text.trim() ? await count(text).catch(() => null) : null;
    if (rare === undefined || text !== area.value) return;
    line.hidden = !rare;
    if (rare) line.textContent = told(rare, Number(area.form.elements.boards?.value));
  };
  const typed = async () => {
    const text = checked = area.value;
    const answer = await check(text).catch(() => undefined);
    if (answer === undefined || text !== area.value) return;
    show(area, placed(answer, text));
    clearTimeout(resting);
    if (!line) return;
    line.hidden = true;
    if (!answer || answer.note) resting = setTimeout(rest, RESTING);
  };
  area.addEventListener("input", () => {
    mark(area, null);
    clearTimeout(typing);
    typing = setTimeout(typed, TYPING);
  });
  area.addEventListener("scroll", () => { area.previousElementSibling.scrollTop = area.scrollTop; });
  if (area.value) typed();
  // By Back a browser puts in what was typed after this has run.
  window.addEventListener("pageshow", () => { if (area.value !== checked) typed(); });
}

function watchCopy(copy) {
  copy.hidden = !navigator.clipboard;
  copy.addEventListener("click", async () => {
    await navigator.clipboard.writeText(copy.parentElement.querySelector("code").textContent);
    copy.textContent = "Copied";
    setTimeout(() => { copy.textContent = "Copy"; }, 2 * SECOND);
  });
}

// Prints the boards that the page shows.
function watchPrint(print) {
  print.hidden = false;
  print.addEventListener("click", () => document.querySelector("#result iframe").contentWindow.print());
}

// The lines to be typed follow the form.
function watchLines(form) {
  const told = latest((given) => ask(form.dataset.lines, given));
  form.addEventListener("change", async () => {
    const lines = await told(new FormData(form)).catch(() => null);
    for (const [name, line] of Object.entries(lines || {})) {
      const place = document.querySelector(`[data-line="${name}"] code`);
      if (place) place.textContent = line;
    }
  });
}

function watchSearch(bar) {
  const follow = async () => {
    const response = await fetch(bar.dataset.state).catch(() => null);
    if (response && response.status === 404) return; // the desk doesn't know the search any more
    const state = response && await response.json().catch(() => null);
    if (!state) return setTimeout(follow, SECOND);
    const found = bar.querySelector("[data-found]");
    if (!state.running || (state.found && !document.querySelector("[data-boards]"))) return location.reload();
    if (found.textContent !== String(state.found)) {
      found.textContent = state.found;
      document.querySelector("[data-boards]").contentWindow.location.reload();
    }
    bar.querySelector("[data-progress]").textContent = state.progress;
    setTimeout(follow, SECOND);
  };
  if (bar.querySelector("[data-ended]").hidden) setTimeout(follow, SECOND);
}

document.querySelectorAll("[data-check]").forEach(watchText);
document.querySelectorAll(".copy").forEach(watchCopy);
document.querySelectorAll(".print").forEach(watchPrint);
document.querySelectorAll("[data-lines]").forEach(watchLines);
document.querySelectorAll("[data-state]").forEach(watchSearch);
