"use strict";
// What a step would change, as px86 shows the state after it; and what belongs to a line of the text.

function unpreview() {
  for (const node of all(".leaving, .holds")) node.classList.remove("leaving", "holds");
  for (const node of all(".ghosted")) node.remove();
  for (const node of all("[data-will]")) {
    node.classList.remove("will");
    node.removeAttribute("data-will");
  }
}

// What holds a step that is refused.
function previewRefused(next) {
  const drained = /^drain (\d+) /.exec(next.step);
  if (drained && next.refused.place !== null) one(`[data-entry="buffer ${drained[1]} ${next.refused.place}"]`)?.classList.add("holds");
}

function previewLists(next) {
  for (const [list, change] of Object.entries(next.changes)) {
    for (const place of change.gone) one(`[data-entry="${list} ${place}"]`)?.classList.add("leaving");
    if (!change.came) continue;
    const entries = list === PENDING ? next.state.pending : next.state.cpus[list.split(" ")[1]].buffer;
    one(`[data-list="${list}"]`)?.append(ghostNode(entries[entries.length - 1], entries.length - 1));
  }
}

function previewWords(view, next) {
  view.state.words.forEach((word, n) => {
    for (const which of ["coherent", "persisted"]) {
      const value = next.state.words[n][which];
      const cell = value === word[which] ? null : one(`[data-cell="${word.word} ${which}"]`);
      if (!cell) continue;
      cell.classList.add("will");
      cell.dataset.will = String(value);
    }
  });
}

function previewRegisters(view, next) {
  view.state.cpus.forEach((cpu, n) => {
    const after = next.state.cpus[n].registers;
    for (const name of new Set([...Object.keys(cpu.registers), ...Object.keys(after)])) {
      const old = cpu.registers[name] ?? 0, value = after[name] ?? 0;
      if (old === value) continue;
      one(`[data-registers="${cpu.cpu}"]`).append(make("span", { class: "ghosted will" }, `${name} → ${value}`));
    }
  });
}

function preview(step) {
  unpreview();
  const next = S.view && nextOf(step);
  if (!next) return;
  if (!next.seen) {
    previewRefused(next);
    return;
  }
  previewLists(next);
  previewWords(S.view, next);
  previewRegisters(S.view, next);
}

// Frames a line of the text with its entries, or none.
function point(line, isScrolled) {
  for (const node of all(".pointed")) node.classList.remove("pointed");
  if (!line) return;
  const row = one(`[data-source="${line}"]`);
  row?.classList.add("pointed");
  for (const node of all(`.entry[data-line="${line}"]`)) node.classList.add("pointed");
  if (isScrolled) row?.scrollIntoView({ block: "nearest" });
}
