"use strict";
// Reads the lines that proved code prints: each word stays as it was printed.

// The lines without the newlines that end them.
function linesOf(printed) {
  return printed.split("\n").slice(0, -1);
}

// What `view` prints before the first event and after each: the line that heads each part, and the part's lines. Nothing
// heads the first one, so the words for that are given.
function partsOf(printed, firstHead) {
  const parts = [{ head: firstHead, lines: [] }];
  for (const line of linesOf(printed)) {
    if (line.startsWith("after ")) {
      parts.push({ head: line, lines: [] });
    } else {
      parts.at(-1).lines.push(line);
    }
  }
  return parts;
}

// `task T under S in NAME at PC WORD ..`, or null where the line is none.
function taskOf(line) {
  const [kind, number, , , , name, , place, ...stands] = line.split(" ");
  return kind === "task" ? { number, name, place, word: stands[0], stands: stands.join(" ") } : null;
}

// `scope S of T WORD ..`, or null where the line is none.
function scopeOf(line) {
  const [kind, number, , , ...words] = line.split(" ");
  return kind === "scope" ? { number, mayExpire: words.includes("may-expire") } : null;
}

function tasksOf(part) {
  return part.lines.map(taskOf).filter(Boolean);
}

function lives(task) {
  return task.word === "ready" || task.word === "waits";
}

// Does the machine stand at a fault, where no event counts?
function isAtFault(part) {
  return part.lines[0].startsWith("fault ");
}

// The events that this line says would count.
function eventsOf(line) {
  const task = taskOf(line);
  const scope = scopeOf(line);
  return [
    ...(task?.word === "ready" ? [`step ${task.number}`] : []),
    ...(task && lives(task) ? [`interrupt ${task.number}`] : []),
    ...(scope?.mayExpire ? [`expire ${scope.number}`] : []),
  ];
}

// The number of the line of the text that an explanation is about, or null where it names none. Its first line names it; of
// a budget over its limit this says `at its end`, and the third line says where the path ends or where the point is.
function lineOf(explanation) {
  const [first, , third] = linesOf(explanation);
  const named = /, line (\d+):/.exec(first) ?? / here, line (\d+):/.exec(third);
  return named && Number(named[1]);
}

// The number of the end that a line is about, or null if it is about none.
function endOf(line) {
  const named = /^(\d+) after \d+ events: /.exec(line);
  return named && Number(named[1]);
}

// The lines of a listing, with `NAME PC` for those that are instructions: after a line `func NAME ..` they are numbered from
// 0, and a label is none.
function listed(listing) {
  let name = "";
  let place = 0;
  return linesOf(listing).map((line) => {
    const isInstruction = line.startsWith("  ");
    if (line.startsWith("func ")) {
      name = line.split(" ")[1];
      place = 0;
    }
    return { line, at: isInstruction ? `${name} ${place++}` : null };
  });
}

// ---- links

// An address that carries a text and a trace, for this page.
function linkTo(text, trace) {
  return `#${new URLSearchParams({ text, trace })}`;
}

// The text and the trace that an address carries, or null if it carries no text.
function linked(hash) {
  const given = new URLSearchParams(hash.slice(1));
  return given.has("text") ? { text: given.get("text"), trace: given.get("trace") ?? "" } : null;
}
