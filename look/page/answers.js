"use strict";
// Who answers: the server, which asks px86; or, in an exported page, the rows that px86 made.

const exported = byId("exported") ? JSON.parse(byId("exported").textContent) : null;

async function post(question, asked) {
  const headers = { "Content-Type": "application/json" };
  const answer = await fetch(question, { method: "POST", headers, body: JSON.stringify(asked) });
  const told = await answer.json();
  if (!answer.ok) throw new Error(told.refused || `status ${answer.status}`);
  return told;
}

// A row stands for a list of steps: a beginning of the exported run, or one step beside it.
const rowOf = (steps) => exported.rows[steps.join(";")];
// Whether there is an answer to what comes behind these steps.
const isKnown = (steps) => !exported || rowOf(steps) !== undefined;

function recordedLook({ steps, at }) {
  let count = 0;
  while (count < steps.length && isKnown(steps.slice(0, count + 1))) count++;
  const kept = steps.slice(0, count), place = Math.min(at, count), given = kept.slice(0, place), row = rowOf(given);
  const stateAfter = (step) => (step.seen ? rowOf([...given, step.step]).state : null);
  return {
    fault: null,
    refused: null,
    beyond: count < steps.length,
    steps: kept,
    at: place,
    layout: exported.layout,
    moments: kept.map((_, n) => rowOf(kept.slice(0, n + 1)).moment),
    state: row.state,
    before: place ? rowOf(kept.slice(0, place - 1)).state : null,
    origins: row.origins,
    tags: row.tags,
    next: row.next.map((step) => ({ ...step, state: stateAfter(step) })),
    images: row.images,
  };
}

function recordedMark(steps) {
  const row = rowOf(steps);
  if (!row || !row.broken || !row.broken.broken) return "unknown";
  return row.broken.broken.length ? "broken" : "none";
}

const recorded = {
  begin: () => ({ ...exported.begin, examples: [] }),
  look: recordedLook,
  broken: ({ steps }) => rowOf(steps).broken,
  marks: ({ lists }) => ({ marks: lists.map(recordedMark) }),
  image: ({ steps, values }) => rowOf(steps).sets[values.join(" ")] ?? { set: null, since: steps.length, missing: [] },
  why: ({ steps }) => ({ told: rowOf(steps.slice(0, -1)).told[steps[steps.length - 1]] }),
  check: () => exported.check,
};

const ask = exported ? async (question, asked) => recorded[question](asked) : post;
