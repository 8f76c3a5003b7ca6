"use strict";
// What the page shows: a text, a list of steps, and the place in it. All else follows from these, by what is answered.

const S = {
  name: "", text: "", steps: [], at: 0, conditions: {},
  // What was answered: of the steps, of the text's fault, and of the condition here (null: not yet, or none).
  view: null, fault: null, broken: null,
  // What is chosen: a memory, by its values, with what was answered of it; what a search found.
  chosen: null, detail: null, found: null,
  editing: false, playing: null, examples: [],
};
// The answers so far, and whether a crash behind a list of steps may break a condition.
const views = new Map();
const marks = new Map();
const MOST_VIEWS = 500;
let lastAsked = 0;

const nameOf = (...parts) => JSON.stringify(parts);
const kind = () => byId("kind").value;
// The condition that is asked of the memories that a crash may leave here.
const condition = () => (kind() === "all" ? byId("condition").value.trim() : "");
const given = () => S.steps.slice(0, S.at);
const nextOf = (step) => S.view.next.find((next) => next.step === step);

async function answerOnce(question, asked) {
  const name = nameOf(question, asked);
  if (!views.has(name)) views.set(name, await ask(question, asked));
  if (views.size > MOST_VIEWS) views.delete(views.keys().next().value);
  return views.get(name);
}

// Asks what is to be shown, and shows it, unless something else was asked for meanwhile.
async function refresh() {
  const mine = ++lastAsked;
  try {
    const isShown = await refreshView(mine);
    if (isShown) await Promise.all([refreshBroken(mine), refreshMarks()]);
  } catch (error) {
    if (mine === lastAsked) showBanner(`There is no answer: ${error.message}`);
  }
}

// Shows the state, and says whether there is one: of a text with a fault its fault is shown.
async function refreshView(mine) {
  const slow = setTimeout(() => document.body.classList.add("busy"), 250);
  try {
    const view = await answerOnce("look", { text: S.text, steps: S.steps, at: S.at });
    if (mine !== lastAsked) return false;
    takeView(view);
    render();
    remember();
    return !view.fault;
  } finally {
    clearTimeout(slow);
    if (mine === lastAsked) document.body.classList.remove("busy");
  }
}

function takeView(view) {
  S.fault = view.fault;
  S.broken = null;
  if (view.fault) return;
  S.view = view;
  S.steps = view.steps;
  S.at = view.at;
  if (view.refused) showBanner(`${view.refused.step} was refused, and the steps behind it were left out. ${view.refused.told}`);
  if (view.beyond) showBanner("This file has one run and the steps beside it, and goes no further here.");
}

// Asks which of the memories break the condition.
async function refreshBroken(mine) {
  const asked = condition();
  if (!asked) return;
  const told = await answerOnce("broken", { text: S.text, steps: given(), condition: asked });
  if (mine !== lastAsked || asked !== condition()) return;
  S.broken = told;
  showImages(S.view);
  showChosen();
}

// Asks of each step that may come next, and of each that was taken, whether a crash behind it may break the condition.
async function refreshMarks() {
  const asked = condition(), text = S.text, view = S.view;
  if (!asked) return;
  const lists = view.next.filter((next) => next.seen).map((next) => [...given(), next.step]);
  for (let count = S.steps.length; count >= 0; count--) lists.push(S.steps.slice(0, count));
  const open = lists.filter((steps) => !marks.has(nameOf(text, asked, steps)));
  const isCurrent = () => text === S.text && asked === condition() && view === S.view;
  const work = async () => {
    while (open.length && isCurrent()) await askMarks(text, asked, open.splice(0, 4));
  };
  showMarks();
  await Promise.all([work(), work()]);
}

async function askMarks(text, asked, lists) {
  const told = await ask("marks", { text, condition: asked, lists });
  told.marks.forEach((mark, n) => marks.set(nameOf(text, asked, lists[n]), mark));
  showMarks();
}

const markOf = (steps) => marks.get(nameOf(S.text, condition(), steps));

// --- moves

function forgetChosen() {
  S.chosen = S.detail = null;
}

function take(step) {
  showBanner("");
  S.steps = [...given(), step];
  S.at = S.steps.length;
  forgetChosen();
  say(`${step}: done`);
  return refresh();
}

function goTo(at) {
  if (at < 0 || at > S.steps.length) return null;
  showBanner("");
  S.at = at;
  forgetChosen();
  return refresh();
}

function cut() {
  S.steps = given();
  return refresh();
}

// Says why a step is refused.
async function tellWhy(step) {
  try {
    const told = await ask("why", { text: S.text, steps: [...given(), step] });
    showBanner(`${step} is refused. ${told.told}`);
  } catch (error) { showBanner(error.message); }
}

function setText(text) {
  S.text = text;
  S.found = null;
  forgetChosen();
  if (byId("source").value !== text) byId("source").value = text;
  return refresh();
}

function setCondition() {
  byId("hunt").disabled = kind() !== "all";
  byId("condition").value = S.conditions[kind()] ?? "";
}

// Shows something else: a text with its steps and its conditions.
async function open(begin) {
  stopPlay();
  showBanner("");
  const steps = begin.steps || [];
  Object.assign(S, { name: begin.name, text: begin.text, steps, at: begin.at ?? steps.length, conditions: begin.conditions || {} });
  Object.assign(S, { view: null, found: null });
  forgetChosen();
  byId("kind").value = ["all", "recovered", "ends"].find((name) => S.conditions[name]) || "all";
  setCondition();
  byId("source").value = S.text;
  await refresh();
}

// --- playing what follows, a step at a time

const PLAY_STEP = 900;

function stopPlay() {
  clearInterval(S.playing);
  S.playing = null;
}

function startPlay(atEnd) {
  stopPlay();
  if (S.at === S.steps.length) return;
  S.playing = setInterval(async () => {
    await goTo(S.at + 1);
    if (S.at < S.steps.length) return;
    stopPlay();
    render();
    if (atEnd) await atEnd();
  }, PLAY_STEP);
  render();
}
