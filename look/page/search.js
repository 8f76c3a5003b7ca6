"use strict";
// `check` and `hunt`: what they found, as a run to be loaded; and `mend`: what is to be put into the text.

const WAITING = {
  check: "px86 check is exploring every run ..",
  hunt: "px86 hunt is trying 1,000 random runs ..",
  mend: "px86 mend is trying flushes and fences ..",
};

async function search(question) {
  const asked = byId("condition").value.trim();
  if (!asked) {
    byId("condition").focus();
    return;
  }
  const begun = byId("from-here").checked ? given() : [];
  const waiting = { waiting: WAITING[question] };
  S.found = waiting;
  showFound();
  let told;
  try {
    told = { ...await ask(question, { text: S.text, steps: begun, kind: kind(), condition: asked }), begun, question, asked };
  } catch (error) { told = { fault: { sentence: error.message, told: "" } }; }
  // What was asked of another text or condition is not shown beside this one.
  if (S.found !== waiting) return;
  S.found = told;
  showFound();
}

// Asks what the text lacks, of which a check found a run that breaks the condition.
async function mend(found) {
  found.mended = { waiting: WAITING.mend };
  showFound();
  let told;
  try {
    told = await ask("mend", { text: S.text, kind: kind(), condition: found.asked });
  } catch (error) { told = { fault: { sentence: error.message, told: "" } }; }
  found.mended = told;
  if (S.found === found) showFound();
}

// An exported page has no px86 to ask. One that was stopped may be asked again.
function mendButton(found) {
  if (exported || found.question !== "check" || (found.mended && !found.mended.fault)) return null;
  return make("button", { type: "button", id: "mend", onclick: () => mend(found) }, "Mend");
}

const faultParts = (fault) => [make("b", {}, fault.sentence), make("pre", {}, fault.told)];

function mendedParts(mended) {
  if (!mended) return [];
  if (mended.waiting) return [make("p", {}, mended.waiting)];
  if (mended.fault) return faultParts(mended.fault);
  return [
    make("pre", { id: "mended" }, mended.lines.join("\n")),
    mended.put.length ? make("button", { type: "button", id: "put", onclick: () => putIn(mended.put) }, "Put it in") : null,
    make("small", {}, `runs from the start; ${mended.seconds} s`),
  ];
}

// What a crash of the run left, or the last state may leave, and which writes are missing there. `steps` are those of the run, and a
// button shows the state before that crash, with this memory.
function explainedPart(found, steps, part) {
  const isLast = part.crash === null, at = isLast ? steps.length : found.begun.length + part.crash;
  const name = isLast ? "the last state" : `the crash of step ${at + 1}`;
  const memory = S.view.layout.flat().map((word, n) => `${word} ${part.values[n]}`).join(", ");
  const act = () => loadAt(steps, at, part.values);
  const place = isKnown(steps.slice(0, at))
    ? make("button", { type: "button", class: "line-link", "data-explained": String(at), onclick: act }, name)
    : name;
  return make("div", { class: "explained" },
    make("p", {}, "Missing in what ", place, isLast ? " may leave, " : " left, ", make("code", {}, memory), ":"),
    part.missing.length ? reasonsNode(part.missing) : null,
    ...part.said.map((line) => make("p", {}, line)));
}

function brokenParts(found) {
  const steps = [...found.begun, ...found.steps], buttons = [];
  if (isKnown(steps)) {
    buttons.push(make("button", { type: "button", class: "main", id: "load", onclick: () => load(found, steps) }, "Load these steps"));
    buttons.push(make("button", { type: "button", onclick: () => loadAndPlay(found, steps) }, "and play"));
  }
  return [
    ...found.explained.map((part) => explainedPart(found, steps, part)),
    found.unexplained ? make("p", {}, `no reasons: ${found.unexplained}`) : null,
    make("div", { class: "row" }, ...buttons, mendButton(found)),
    ...mendedParts(found.mended),
  ];
}

function foundParts(found) {
  if (found.waiting) return [found.waiting];
  if (found.fault) return faultParts(found.fault);
  const parts = [make("pre", {}, found.lines.join("\n"))];
  const from = found.begun.length ? `runs behind step ${found.begun.length}` : "runs from the start";
  parts.push(make("small", {}, found.seconds === undefined ? from : `${from}; ${found.seconds} s`));
  if (!found.holds) parts.push(...brokenParts(found));
  return parts.filter(Boolean);
}

function showFound() {
  const box = byId("found"), found = S.found;
  byId("stop").hidden = !found?.waiting && !found?.mended?.waiting;
  box.hidden = !found;
  if (!found) return;
  const isAnswer = !found.fault && !found.waiting;
  box.className = classes("found", isAnswer && (found.holds ? "good" : "bad"));
  box.replaceChildren(...foundParts(found));
}

// Shows the memory that was found, at the end of the run that leads to it.
const chooseFound = (found) => (found.values && kind() === "all" ? choose(found.values.join(" ")) : null);

// Loads the run, and stands at a place of it.
async function loadAt(steps, at, values) {
  S.steps = steps;
  S.at = at;
  forgetChosen();
  await refresh();
  if (values) await choose(values.join(" "));
}

async function load(found, steps) {
  await loadAt(steps, steps.length, null);
  await chooseFound(found);
}

async function loadAndPlay(found, steps) {
  S.steps = steps;
  S.at = found.begun.length;
  forgetChosen();
  await refresh();
  startPlay(() => chooseFound(found));
}

// Puts each instruction behind its line: from the last to the first, so that the lines above stay where they are.
function putIn(put) {
  const lines = S.text.split("\n");
  for (const { instruction, line } of [...put].reverse()) lines.splice(line, 0, instruction);
  S.found = null;
  say(put.map(({ instruction, line }) => `${instruction} is put in behind line ${line}`).join(", "));
  setText(lines.join("\n"));
}
