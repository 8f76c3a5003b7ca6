"use strict";
// The memories that a crash may leave, those that break the condition with px86's reasons, and the way into one.

// px86's words, with each `line N` as a link to that line.
function withLinks(text) {
  return text.split(/(line \d+)/).map((part) => {
    const found = /^line (\d+)$/.exec(part);
    if (!found) return part;
    return make("button", { type: "button", class: "line-link", "data-line": found[1], onclick: () => point(found[1], true) }, part);
  });
}

function reasonNode(line) {
  const found = /^missing (\S+ \S+) (.*)$/.exec(line);
  return make("li", {}, ...(found ? ["the write ", make("code", {}, found[1]), ", ", ...withLinks(found[2])] : withLinks(line)));
}
const reasonsNode = (lines) => make("ul", {}, ...lines.map(reasonNode));

// What is said above the memories.
function verdictParts(images) {
  const count = `${images.count} ${images.count === 1 ? "memory" : "memories"}`, broken = S.broken?.broken;
  if (!broken) return [count, condition() || kind() !== "all" ? "." : ". Type what must hold: what breaks it is marked."];
  if (!broken.length) return [count, ". ", make("b", { class: "good" }, "✓ none breaks it"), "."];
  const bad = S.broken.count;
  return [count, ". ", make("b", { class: "bad" }, `✗ ${bad} ${bad === 1 ? "breaks" : "break"} the condition`), "."];
}

function memoryRow(names, values, bad) {
  const name = values.join(" "), isChosen = S.chosen === name;
  const said = names.map((word, n) => `${word} ${values[n]}`).join(", ");
  const label = `the memory ${said}${bad ? ", which breaks the condition" : ""}`;
  const pick = make("button", {
    type: "button", class: "pick", "data-focus": `image ${name}`, "data-image": name, "aria-pressed": String(isChosen),
    "aria-label": label, onclick: () => choose(name),
  }, bad ? "✗ breaks it" : "show");
  const cells = values.map((value) => make("td", {}, String(value)));
  return make("tr", { class: classes(bad && "bad", isChosen && "chosen") }, make("td", {}, pick), ...cells);
}

// The rows of a memory: its values, and below them the reasons, and what was chosen of it.
function memoryRows(names, values, bad) {
  const rows = [memoryRow(names, values, bad)], width = names.length + 1;
  if (S.chosen === values.join(" ")) rows.push(detailNode(width, bad));
  else if (bad?.missing) rows.push(make("tr", { class: "reason" }, make("td", { colspan: width }, reasonsNode(bad.missing))));
  return rows;
}

// A long name may be broken behind its underscores.
const nameParts = (name) => name.split(/(?<=_)/).flatMap((part) => [part, make("wbr")]);

function showImages(view) {
  const images = view.images, fault = S.broken?.fault;
  byId("condition-fault").hidden = !fault;
  byId("condition-fault").textContent = fault ? fault.told : "";
  if (!images.images) {
    byId("verdict").replaceChildren(`${images.fault.number} ${images.fault.name}: ${images.fault.sentence}`);
    byId("images").replaceChildren();
    return;
  }
  byId("verdict").replaceChildren(...verdictParts(images));
  const names = view.layout.flat(), broken = new Map((S.broken?.broken || []).map((bad) => [bad.values.join(" "), bad]));
  const heads = names.map((name) => make("th", { scope: "col" }, ...nameParts(name)));
  const rows = images.images.flatMap((values) => memoryRows(names, values, broken.get(values.join(" "))));
  const table = make("table", {},
    make("thead", {}, make("tr", {}, make("td"), ...heads)),
    make("tbody", {}, ...rows));
  const left = images.count - images.images.length;
  byId("images").replaceChildren(table, ...(left ? [make("p", {}, `and ${left} more`)] : []));
}

// --- the memory that is chosen

function sinceParts(since) {
  if (!since) return ["Possible from the start."];
  const name = `step ${since}, ${S.steps[since - 1]}`;
  return ["Possible since ", make("button", { type: "button", class: "line-link", onclick: () => goTo(since) }, name), "."];
}

// The steps that have these entries leave, oldest first, and a crash. px86 makes them, or refuses one.
function stepsInto(places) {
  const lineOf = new Map(S.view.layout.flatMap((names, line) => names.map((name) => [name, line])));
  const leave = places.map((place) => S.view.state.pending[place]);
  const steps = leave.map((entry) => (entry.kind === "W" ? `persist ${lineOf.get(entry.word)}` : "settle"));
  return [...given(), ...steps, "crash"];
}

function crashInto(steps) {
  S.steps = steps;
  S.at = steps.length;
  forgetChosen();
  return refresh();
}

function detailNode(width, bad) {
  const detail = S.detail, missing = detail?.missing ?? bad?.missing ?? [], parts = missing.length ? [reasonsNode(missing)] : [];
  if (detail?.set) {
    const first = detail.set.map((place) => textOf(S.view.state.pending[place])), steps = stepsInto(detail.set);
    const said = first.length ? `Persists or settles before the crash: ${first.join(", ")}. What else is` : "What is";
    parts.push(make("p", {}, `${said} buffered or pending is lost. `, ...sinceParts(detail.since)));
    const attributes = { type: "button", class: "main", id: "crash-into", "data-focus": "crash-into", onclick: () => crashInto(steps) };
    if (isKnown(steps)) parts.push(make("button", attributes, "Crash and leave this"));
  }
  return make("tr", { class: classes(bad ? "reason" : "detail", "chosen-detail") }, make("td", { colspan: width }, ...parts));
}

// Shows which entries persist first for a memory, and which are lost; or no longer.
async function choose(name) {
  const isChosen = S.chosen === name, view = S.view;
  forgetChosen();
  if (!isChosen) S.chosen = name;
  render();
  if (isChosen) return;
  try {
    const values = name === "" ? [] : name.split(" ");
    const detail = await ask("image", { text: S.text, steps: given(), values });
    if (S.chosen !== name || S.view !== view) return;
    S.detail = detail;
    render();
    say(detail.since ? `possible since step ${detail.since}` : "possible from the start");
    one("#images .chosen")?.scrollIntoView({ block: "nearest" });
  } catch (error) { showBanner(error.message); }
}

function showChosen() {
  if (S.chosen === null || !S.detail?.set) return;
  const kept = new Set(S.detail.set.map((place) => `${PENDING} ${place}`));
  for (const node of all("[data-entry]")) node.classList.add(kept.has(node.dataset.entry) ? "kept" : "missing");
}

function chooseNextBad() {
  const bad = all(".images .bad .pick"), at = bad.findIndex((node) => node.dataset.image === S.chosen);
  bad[(at + 1) % bad.length]?.click();
}
