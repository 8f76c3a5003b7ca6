"use strict";
// The steps that may come next, those that are refused, and the time line of those that were taken.

// What a step would take, in the words of the page.
function describe(view, next) {
  if (next.step === "crash") return "the power fails";
  if (next.instruction !== null) return next.instruction;
  const [what, cpu, place] = next.step.split(" ");
  if (what === "drain") return textOf(view.state.cpus[cpu].buffer[place]);
  const [left] = next.changes?.[PENDING]?.gone ?? [];
  return left === undefined ? "" : textOf(view.state.pending[left]);
}

function stepNode(view, next, n) {
  return make("li", {}, make("button", {
    type: "button", class: classes(next.step === "crash" && "crash"), "data-step": next.step, "data-focus": `step ${next.step}`,
    onclick: () => take(next.step),
  },
  n < 9 ? make("kbd", { "aria-hidden": "true" }, String(n + 1)) : make("span"),
  make("b", {}, next.step),
  make("span", { class: "why" }, describe(view, next)),
  make("span", { class: "warns", "data-warns": next.step })));
}

function refusedNode(view, next) {
  const about = [next.step, describe(view, next)].filter(Boolean).join("  ");
  const place = next.refused.place === null ? "" : ` ${next.refused.place}`;
  const attributes = { type: "button", "data-holds": next.step, onclick: () => tellWhy(next.step) };
  return make("li", {}, make("button", attributes, `${about}: ${refusalName(next)}${place}`));
}

function showSteps(view) {
  const accepted = view.next.filter((next) => next.seen), refused = view.next.filter((next) => !next.seen);
  const none = make("li", { class: "none" }, exported ? "This file goes no further here: undo." : "none");
  byId("steps").replaceChildren(...(accepted.length ? accepted.map((next, n) => stepNode(view, next, n)) : [none]));
  const box = byId("refused");
  box.hidden = !refused.length;
  box.querySelector("summary").textContent = `${refused.length} refused`;
  box.querySelector("ul").replaceChildren(...refused.map((next) => refusedNode(view, next)));
}

// --- the time line

// What a step that is no instruction showed, in the words of the page.
function seenText(seen) {
  if (seen.kind === "left") return `${textOf(seen.entry)} leaves`;
  if (seen.kind === "persisted") return `${seen.word} = ${seen.value} persists`;
  if (seen.kind === "settled") return `PER ${seen.cache_line} settled`;
  return seen.kind === "crashed" ? "recovery starts" : seen.kind;
}

function momentNode(view, n) {
  const moment = n > 0 ? view.moments[n - 1] : null;
  const about = moment ? moment.instruction ?? seenText(moment.seen) : "opening state";
  return make("li", { class: classes(n > S.at && "later", moment?.step === "crash" && "crash"), "data-moment": String(n) },
    make("button", {
      type: "button", "data-focus": `moment ${n}`, "aria-current": n === S.at ? "step" : null,
      "aria-label": moment ? `step ${n}: ${moment.step}, ${about}` : "start", onclick: () => goTo(n),
    },
    make("span", { class: "number" }, moment ? `${n} ${moment.step}` : "start"),
    make("span", { class: "what" }, about)));
}

function showTimeline(view) {
  byId("timeline").replaceChildren(...Array.from({ length: S.steps.length + 1 }, (_, n) => momentNode(view, n)));
  showHere();
}

// Scrolls the time line to the place where one stands.
function showHere() {
  const box = byId("timeline"), here = box.querySelector("[aria-current]");
  if (here) box.scrollLeft = Math.max(0, here.offsetLeft - box.offsetLeft - (box.clientWidth - here.offsetWidth) / 2);
}

function showControls() {
  const isFirst = S.at === 0, isLast = S.at === S.steps.length;
  byId("undo").disabled = byId("first").disabled = isFirst;
  byId("redo").disabled = byId("last").disabled = isLast;
  byId("cut").hidden = isLast;
  byId("play").disabled = isLast && !S.playing;
  byId("play").textContent = S.playing ? "Pause" : "Play";
  byId("play").setAttribute("aria-pressed", String(Boolean(S.playing)));
}

// --- whether a crash may break the condition

// Warns of each step behind which a crash may break the condition, if it may not yet; and marks each moment at which it may.
function showMarks() {
  const here = markOf(given());
  for (const node of all("[data-warns]")) {
    const mark = markOf([...given(), node.dataset.warns]);
    node.textContent = mark === "broken" && here === "none" ? "✗ then may break" : "";
  }
  for (const node of all("[data-moment]")) {
    const isBroken = Boolean(condition()) && markOf(S.steps.slice(0, Number(node.dataset.moment))) === "broken";
    node.classList.toggle("bad", isBroken);
    node.title = isBroken ? "a crash here may leave a memory that breaks the condition" : "";
  }
}
