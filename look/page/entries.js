"use strict";
// The lists of entries: store buffers and the pending list.

const PENDING = "pending";
const isThere = (part) => part !== undefined && part !== null;
const textOf = (entry) => [entry.kind, entry.word, entry.value, entry.cache_line].filter(isThere).join(" ");
const lineName = (line) => `cache line ${line}`;
const classOf = (entry) => ({ W: "write", SF: "fence", PER: "marker" })[entry.kind] || "flush";

function bodyOf(entry) {
  if (entry.kind === "W") return `${entry.word} = ${entry.value}`;
  return entry.kind === "SF" ? "sfence" : lineName(entry.cache_line);
}

function partsOf(entry, place, foot) {
  return [
    make("span", { class: "kind" }, entry.kind),
    make("span", { class: "place" }, String(place)),
    make("span", { class: "body" }, bodyOf(entry)),
    make("span", { class: "foot" }, foot),
  ];
}

const refusalName = (next) => `${next.refused.number} ${next.refused.name}`;
// What an element does at which a step may be taken: a refused one says why.
const doing = (next) => (next.seen ? next.step : `${next.step} is refused: ${refusalName(next)}`);
const act = (next) => () => (next.seen ? take(next.step) : tellWhy(next.step));

// An entry: a button, if there is a step that would take it away.
function entryNode(entry, list, place, line, next) {
  const id = `${list} ${place}`, foot = line ? `text line ${line}` : " ";
  const about = { "data-entry": id, "data-line": line };
  if (!next) return make("span", { ...about, class: `entry ${classOf(entry)}` }, ...partsOf(entry, place, foot));
  return make("button", {
    ...about, type: "button", class: classes("entry", classOf(entry), next.seen ? "can" : "cannot"),
    "data-step": next.step, "data-focus": `entry ${id}`, "aria-disabled": next.seen ? null : "true",
    title: doing(next), "aria-label": `${textOf(entry)}, ${foot}. ${doing(next)}`, onclick: act(next),
  }, ...partsOf(entry, place, foot));
}

// The entry that would come to a list.
function ghostNode(entry, place) {
  return make("li", { class: "ghosted" }, make("span", { class: `entry ${classOf(entry)} ghost` }, ...partsOf(entry, place, "would come")));
}

// A list, oldest first; `stepAt` finds the step at a place. The newest entry is marked if the last step brought it.
function listNode(list, entries, old, stepAt, label) {
  const lines = S.view.origins[list];
  const rows = entries.map((entry, place) => {
    const isNew = old && entries.length > old.length && place === entries.length - 1;
    return make("li", { class: classes(isNew && "came") }, entryNode(entry, list, place, lines[place], stepAt(place)));
  });
  if (!rows.length) rows.push(make("li", { class: "none" }, "empty"));
  return make("ol", { class: "list", "data-list": list, tabindex: entries.length > 4 ? "0" : null, "aria-label": label }, ...rows);
}
