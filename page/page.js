"use strict";
// The content and the actions of the page. Each line about a program or a run comes from a call. What is decided here and in
// reading.js, docs/PAGE.md lists.

const element = (id) => document.getElementById(id);

// The status of a fault of a text or a trace, and the status if memory ran out.
const HAS_NO_RUN = [3, 6];

// The status of a search that stopped before it saw all schedules.
const STOPPED = 5;

// How many states a search for ends keeps at most: after each change of the text, and if the page is asked for more.
const STATES_AT_ONCE = 1000;
const STATES_ON_REQUEST = 20000;

let calls = null;
let mostStates = STATES_AT_ONCE; // of the search whose ends are shown
let mayCome = { expiries: true, interrupts: 0 }; // in that search
let marked = null; // the line of the text that is marked
let parts = []; // what stands before the first event and after each
let namedParts = []; // the same with lines and names of the text
let place = 0; // how many events are to be shown
let at = 0; // how many are shown: fewer where the trace has fewer, or is at fault
let drawn = ""; // the picture of the whole run
let hasRun = false; // or is there a fault of the text or the trace, or no memory?

// The trace as it is written. A last line that nothing ends yet gets its newline: in a text area it looks like any other.
function trace() {
  const written = element("trace").value;
  return written === "" || written.endsWith("\n") ? written : `${written}\n`;
}

// So many lines of the trace, or all that there are.
function beginning(count) {
  return linesOf(trace()).slice(0, count).map((line) => `${line}\n`).join("");
}

// ---- the program

function layLines() {
  const text = element("text");
  const lines = text.value.split("\n");
  text.rows = lines.length;
  text.style.minWidth = `${lines.reduce((most, line) => Math.max(most, line.length), 0) + 2}ch`;
  element("gutter").textContent = lines.map((_, before) => before + 1).join("\n");
}

// Where the editor has to be scrolled to for a line to be in view: where it is, or as near to that as may be.
function scrollFor(line, scroll) {
  const text = element("text");
  const height = parseFloat(getComputedStyle(text).lineHeight);
  const top = text.offsetTop + (line - 1) * height;
  return Math.min(Math.max(scroll, top + height - element("editor").clientHeight), top);
}

// The line of the text in which someone is writing, or null.
function caretLine() {
  const text = element("text");
  return document.activeElement === text ? text.value.slice(0, text.selectionEnd).split("\n").length : null;
}

// Scrolls to a line, but never away from where someone is writing.
function reveal(line) {
  const scroll = scrollFor(line, element("editor").scrollTop);
  const caret = caretLine();
  if (caret === null || scrollFor(caret, scroll) === scroll) {
    element("editor").scrollTop = scroll;
  }
}

function revealMark() {
  if (marked !== null) {
    reveal(marked);
  }
}

function markLine(line) {
  marked = line;
  element("editor").dataset.marked = line ?? "";
  element("editor").style.setProperty("--line", line ?? 0);
  revealMark();
}

// What the page says about the text: its budgets if it is accepted, otherwise why it isn't.
function verdict(text) {
  const explained = calls.explain(text);
  markLine(explained.status === 0 ? null : lineOf(explained.text));
  return explained.status === 0 ? explained.text + calls.verify(text).text : explained.text;
}

function listingLine({ line, at: place }) {
  const item = made("div", {}, line);
  item.dataset.place = place ?? "";
  return item;
}

function judge() {
  const text = element("text").value;
  layLines();
  element("verdict").textContent = verdict(text);
  element("listing").replaceChildren(...listed(calls.list(text).text).map(listingLine));
}

// ---- the ends

function endLine(line) {
  const number = endOf(line);
  if (number === null) {
    return made("li", {}, line);
  }
  const node = made("button", { className: "end", onclick: guarded(() => playEnd(number)), title: "play its trace" }, line);
  node.dataset.end = number;
  return made("li", {}, node);
}

function showEnds(found) {
  element("ends").replaceChildren(...linesOf(found.text).map(endLine));
  element("more").hidden = found.status !== STOPPED || mostStates === STATES_ON_REQUEST;
}

// Which events may come besides steps. A field with no number in its range counts as 0.
function chosenEvents() {
  const interrupts = element("interrupts");
  return { expiries: element("expiries").checked, interrupts: interrupts.checkValidity() ? Number(interrupts.value) : 0 };
}

function findEnds(most) {
  mostStates = most;
  mayCome = chosenEvents();
  showEnds(calls.ends(element("text").value, most, mayCome));
}

// Shows the lines and the trace of one search.
function playEnd(number) {
  const found = calls.endsAndTrace(element("text").value, mostStates, number, mayCome);
  showEnds(found);
  element("ends").querySelector(`[data-end="${number}"]`)?.focus();
  if (!HAS_NO_RUN.includes(found.status)) {
    element("trace").value = found.trace;
    place = linesOf(found.trace).length;
    run();
  }
}

// ---- the run

// Writes the event behind those that are shown, in place of the later ones.
function play(event) {
  element("trace").value = `${beginning(at)}${event}\n`;
  place = at + 1;
  run();
}

function button(event, words) {
  const node = made("button", { onclick: guarded(() => play(event)), title: event }, words);
  node.dataset.event = event;
  return node;
}

// A line of a view, with the buttons of its events; it is shown with lines and names of the text.
function standing(line, shown, canPlay) {
  const item = made("li", {}, made("span", { className: "words" }, shown));
  item.append(...(canPlay ? eventsOf(line) : []).map((event) => button(event, event)));
  return item;
}

function taskMark(task, canPlay) {
  if (canPlay && task.word === "ready") {
    return Object.assign(button(`step ${task.number}`, task.number), { className: "task", ariaLabel: `step ${task.number}` });
  }
  return made("span", { className: "task", title: `task ${task.number} ${task.stands}` }, task.number);
}

function markTasks(part, canPlay) {
  element("listing").querySelectorAll(".task").forEach((mark) => mark.remove());
  for (const task of tasksOf(part).filter(lives)) {
    element("listing").querySelector(`[data-place="${task.name} ${task.place}"]`)?.append(taskMark(task, canPlay));
  }
}

// Puts the focus back to the button of the same event, or to the first one, where it was on one that went.
function refocused(event) {
  const buttons = [...element("stands").querySelectorAll("button")];
  (buttons.find((it) => it.dataset.event === event) ?? buttons[0] ?? element("back")).focus();
}

// Where the run stands after the events that are shown, by the lines of the text; where there is no run, why.
function told() {
  return calls.explainRun(element("text").value, hasRun ? beginning(at) : trace()).text;
}

function show() {
  at = Math.min(place, parts.length - 1);
  const part = parts[at];
  const canPlay = !isAtFault(part);
  const focused = document.activeElement.dataset.event;
  const isOnColumn = document.activeElement.closest(".columns") !== null;
  element("head").textContent = namedParts[at].head;
  element("stands").replaceChildren(...part.lines.map((line, i) => standing(line, namedParts[at].lines[i], canPlay)));
  markTasks(part, canPlay);
  element("told").textContent = told();
  element("picture").replaceChildren(...(hasRun ? picture(drawn, parts, at, guarded(move)) : []));
  element("first").disabled = element("back").disabled = at === 0;
  element("last").disabled = element("forward").disabled = at === parts.length - 1;
  if (focused) {
    refocused(focused);
  } else if (isOnColumn) {
    element("picture").querySelector("[aria-current]")?.focus();
  }
}

function move(to) {
  place = Math.max(0, Math.min(to, parts.length - 1));
  show();
}

// Runs the trace. If there is no run, the page shows what is wrong with the text or the trace instead.
function run() {
  const text = element("text").value;
  const options = { each: true, full: element("full").checked };
  const viewed = calls.view(text, trace(), options);
  const named = calls.namedView(text, trace(), options);
  hasRun = !HAS_NO_RUN.includes(viewed.status);
  drawn = hasRun ? calls.draw(text, trace(), { brief: element("brief").checked }).text : "";
  shareRun();
  const firstHead = hasRun ? "before the first event" : "";
  parts = partsOf(viewed.text, firstHead);
  namedParts = partsOf(named.text, firstHead);
  element("course-words").textContent = named.text;
  show();
}

// ---- what goes out of the page

// A link that carries the text and the trace, and the picture as files.
function shareRun() {
  element("link").href = linkTo(element("text").value, trace());
  element("save-svg").href = hasRun ? svgAddress(drawn) : "";
  element("saving").hidden = !hasRun;
}

function savePng() {
  pngOf(drawn).then((blob) => save("run.png", URL.createObjectURL(blob)), (error) => {
    element("verdict").textContent = `the page failed: ${error.message}`;
  });
}

// ---- the whole page

// A failure outside of proved code is shown instead of the verdict.
function guarded(act) {
  return (...given) => {
    try {
      act(...given);
    } catch (error) {
      element("verdict").textContent = `the page failed: ${error.message}`;
    }
  };
}

function change() {
  judge();
  run();
  findEnds(STATES_AT_ONCE);
}

function choose() {
  const example = EXAMPLES[element("example").selectedIndex];
  element("text").value = example.text;
  element("trace").value = example.trace;
  element("editor").scrollTop = 0;
  place = linesOf(example.trace).length;
  change();
}

// Takes the text and the trace that the address carries, if it does.
function takeLink() {
  const given = linked(location.hash);
  if (given === null) {
    return false;
  }
  element("text").value = given.text;
  element("trace").value = given.trace;
  place = linesOf(trace()).length;
  change();
  return true;
}

function start() {
  if (!takeLink()) {
    choose();
  }
}

function connect() {
  element("example").append(...EXAMPLES.map((example) => new Option(example.name)));
  element("example").onchange = guarded(choose);
  element("text").oninput = guarded(change);
  element("text").onblur = guarded(revealMark);
  element("trace").oninput = guarded(run);
  element("full").onchange = guarded(run);
  element("brief").onchange = guarded(run);
  element("save-png").onclick = guarded(savePng);
  window.onhashchange = guarded(takeLink);
  element("more").textContent = `Search ${STATES_ON_REQUEST} states`;
  element("more").onclick = guarded(() => findEnds(STATES_ON_REQUEST));
  element("expiries").onchange = guarded(() => findEnds(STATES_AT_ONCE));
  element("interrupts").oninput = guarded(() => findEnds(STATES_AT_ONCE));
  element("first").onclick = guarded(() => move(0));
  element("back").onclick = guarded(() => move(at - 1));
  element("forward").onclick = guarded(() => move(at + 1));
  element("last").onclick = guarded(() => move(parts.length - 1));
}

async function begin() {
  if (typeof MODULE === "undefined") {
    element("verdict").textContent = "this page isn't built: run page/build.sh, and open page/out/index.html";
    return;
  }
  calls = await Calls.load(MODULE);
  connect();
  guarded(start)();
  document.body.dataset.ready = "yes";
}

begin().catch((error) => {
  element("verdict").textContent = `this browser can't load the page's module: ${error.message}`;
});
