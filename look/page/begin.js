"use strict";
// Shows all of it, listens to what a person does, and begins.

function render() {
  const view = S.view, focused = document.activeElement?.dataset?.focus;
  byId("name").textContent = S.name;
  document.title = `${S.name}: px86-look`;
  showControls();
  showFault();
  showText(view);
  if (!view) return;
  showMachine(view);
  showSteps(view);
  showTimeline(view);
  showImages(view);
  showChosen();
  showFound();
  showMarks();
  if (!focused) return;
  const again = one(`[data-focus="${CSS.escape(focused)}"]`) || byId("steps").querySelector("button");
  again?.focus({ preventScroll: true });
}

// --- keys

const MOVES = {
  ArrowLeft: () => goTo(S.at - 1),
  ArrowRight: () => goTo(S.at + 1),
  Home: () => goTo(0),
  End: () => goTo(S.steps.length),
};
const LETTERS = {
  u: MOVES.ArrowLeft,
  r: MOVES.ArrowRight,
  p: () => byId("play").click(),
  c: () => byId("condition").focus(),
  k: () => search("check"),
  e: () => byId("edit").click(),
  x: showExport,
  i: chooseNextBad,
  "?": () => byId("keys-dialog").showModal(),
};

function actOfKey(key) {
  if (MOVES[key]) return MOVES[key];
  if (!byId("keys-on").checked) return null;
  if (/^[1-9]$/.test(key)) return () => byId("steps").querySelectorAll("button")[Number(key) - 1]?.click();
  return Object.hasOwn(LETTERS, key) ? LETTERS[key] : null;
}

function pressedInCondition(event) {
  if (event.key === "Enter" && !event.shiftKey) {
    event.preventDefault();
    search("check");
  }
  if (event.key === "Escape") byId("next").focus();
}

function pressed(event) {
  if (event.target === byId("condition")) pressedInCondition(event);
  const isTyping = /^(INPUT|TEXTAREA|SELECT)$/.test(event.target.tagName) && event.target.type !== "checkbox";
  if (isTyping || event.ctrlKey || event.metaKey || event.altKey || one("dialog[open]") || S.fault) return;
  // Arrows scroll a list that has the focus.
  if (event.target.tagName === "OL" && event.key.startsWith("Arrow")) return;
  const act = actOfKey(event.key);
  if (!act) return;
  event.preventDefault();
  act();
}

// --- pointing

function pointed(event) {
  const step = event.target.closest?.("[data-step], [data-holds]"), line = event.target.closest?.("[data-line], [data-source]");
  if (step) preview(step.dataset.step || step.dataset.holds);
  if (line) point(line.dataset.line || line.dataset.source, false);
}

function pointedAway(event) {
  if (event.target.closest?.("[data-step], [data-holds]")) unpreview();
  if (event.target.closest?.("[data-line], [data-source]")) point(null);
}

// --- what belongs to each control

function toggleTheme() {
  const root = document.documentElement, isSet = root.dataset.theme !== undefined;
  const isDark = isSet ? root.dataset.theme === "dark" : matchMedia("(prefers-color-scheme: dark)").matches;
  root.dataset.theme = isDark ? "light" : "dark";
}

function conditionTyped() {
  S.conditions[kind()] = byId("condition").value;
  S.found = null;
  refresh();
}

function kindChosen() {
  setCondition();
  S.found = null;
  refresh();
}

async function exampleChosen() {
  const number = byId("examples").value;
  if (number === "") return;
  try {
    await open(await ask("example", { number: Number(number) }));
  } catch (error) { showBanner(error.message); }
}

function playOrPause() {
  if (!S.playing) return startPlay();
  stopPlay();
  return render();
}

const CLICKS = {
  undo: MOVES.ArrowLeft, redo: MOVES.ArrowRight, first: MOVES.Home, last: MOVES.End, cut, play: playOrPause, edit,
  export: showExport, keys: LETTERS["?"], theme: toggleTheme, hunt: () => search("hunt"), stop: () => ask("stop", {}),
  "copy-command": () => copy("export-command"), "copy-steps": () => copy("export-steps"),
  "save-steps": () => saveFile(`${fileName()}.steps`, stepLines()), "save-text": () => saveFile(`${fileName()}.litmus`, S.text),
};

function listen() {
  for (const [id, act] of Object.entries(CLICKS)) byId(id).addEventListener("click", () => act());
  for (const button of all("[data-close]")) button.addEventListener("click", () => button.closest("dialog").close());
  for (const name of ["mouseover", "focusin"]) document.addEventListener(name, pointed);
  for (const name of ["mouseout", "focusout"]) document.addEventListener(name, pointedAway);
  document.addEventListener("keydown", pressed);
  byId("source").addEventListener("input", afterTyping(() => setText(byId("source").value), 300));
  byId("source").addEventListener("scroll", () => { byId("gutter").scrollTop = byId("source").scrollTop; });
  byId("condition").addEventListener("input", afterTyping(conditionTyped, 300));
  byId("kind").addEventListener("change", kindChosen);
  byId("examples").addEventListener("change", exampleChosen);
  byId("ask").addEventListener("submit", (event) => {
    event.preventDefault();
    search("check");
  });
  window.addEventListener("hashchange", openLink);
  window.addEventListener("resize", showHere);
}

// --- the beginning

function showProgram(program) {
  byId("proof").textContent = `${program.version}, ${program.proved ? "proved" : "NOT PROVED"}`;
  byId("proof").classList.toggle("not", !program.proved);
  byId("proof").title = "What is shown is what this program said. The page itself is not proved.";
}

// The examples, by their folders.
function showExamples(examples) {
  const folders = new Map();
  examples.forEach((example, n) => {
    const folder = example.name.includes("/") ? example.name.split("/")[0] : "examples";
    const option = make("option", { value: String(n), title: example.title }, example.name.split("/").pop().replace(/\.litmus$/, ""));
    folders.set(folder, [...(folders.get(folder) || []), option]);
  });
  const groups = [...folders].map(([label, options]) => make("optgroup", { label }, ...options));
  byId("examples").replaceChildren(make("option", { value: "" }, "choose .."), ...groups);
}

// An exported page has no px86 to ask.
function hideWhatAsks() {
  for (const id of ["edit", "hunt", "examples-label", "from-label", "export"]) byId(id).hidden = true;
  byId("kind").disabled = true;
  byId("condition").readOnly = true;
  byId("check").hidden = !exported.check;
}

async function begin() {
  listen();
  const told = await ask("begin", {});
  S.examples = told.examples;
  showProgram(told.program);
  showExamples(told.examples);
  if (exported) hideWhatAsks();
  await open((!exported && unpacked(location.hash.slice(1))) || told);
}

begin().catch((error) => showBanner(`There is no answer: ${error.message}`));
