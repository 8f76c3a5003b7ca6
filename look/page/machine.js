"use strict";
// Processors, the pending list, and memory.

function registersNode(cpu, old) {
  const shown = Object.entries(cpu.registers).map(([name, value]) => {
    const isChanged = old && old.registers[name] !== value;
    const about = { "data-register": `${cpu.cpu} ${name}`, class: classes(isChanged && "changed") };
    return make("span", about, `${name} `, make("b", {}, String(value)));
  });
  if (cpu.zf) shown.push(make("span", { "data-register": `${cpu.cpu} zf` }, "ZF ", make("b", {}, "1")));
  if (cpu.trap !== null) shown.push(make("span", {}, "trapped at ", make("b", {}, String(cpu.trap))));
  return make("p", { class: "registers", "data-registers": String(cpu.cpu) }, ...(shown.length ? shown : ["all registers 0"]));
}

// What a processor would execute next: a button.
function executeNode(cpu) {
  const step = `exec ${cpu.cpu}`, next = nextOf(step);
  const instruction = cpu.line ? lineText(cpu.line) : next?.instruction ?? cpu.progress;
  const parts = [make("b", {}, step), make("span", {}, instruction)];
  if (!next) return make("span", { class: "exec", "data-line": cpu.line }, ...parts);
  return make("button", {
    type: "button", class: classes("exec", next.seen && "can"), "data-step": step, "data-focus": `exec ${cpu.cpu}`, "data-line": cpu.line,
    "aria-disabled": next.seen ? null : "true", title: doing(next), onclick: act(next),
  }, ...parts);
}

function processorNode(cpu, old) {
  const list = `buffer ${cpu.cpu}`, program = cpu.program === "main" ? "main program" : "recovery";
  return make("section", { class: "box cpu", "aria-label": `Processor ${cpu.cpu}` },
    make("h2", {}, `Processor ${cpu.cpu}`, make("small", {}, `${program}, ${cpu.progress}`)),
    executeNode(cpu),
    registersNode(cpu, old),
    make("p", { class: "list-title" }, "store buffer: seen by this processor alone, oldest first"),
    listNode(list, cpu.buffer, old?.buffer, (place) => nextOf(`drain ${cpu.cpu} ${place}`), `Store buffer of processor ${cpu.cpu}`));
}

// A step that the memory takes alone is shown at the entry that it takes away.
function pendingNode(view) {
  const at = new Map();
  for (const next of view.next) {
    if (!next.seen || !/^(persist|settle)/.test(next.step)) continue;
    const [place] = next.changes[PENDING]?.gone ?? [];
    if (place !== undefined && !at.has(place)) at.set(place, next);
  }
  return listNode(PENDING, view.state.pending, view.before?.pending, (place) => at.get(place), "Pending entries");
}

function wordNode(word, old) {
  const differs = word.coherent !== word.persisted;
  const cell = (which, isMarked) => make("td", {
    "data-cell": `${word.word} ${which}`,
    class: classes(old && old[which] !== word[which] && "changed", isMarked && "differs"),
  }, String(word[which]));
  return make("tr", {}, make("th", { scope: "row" }, word.word), cell("coherent", differs), cell("persisted", false));
}

function memoryNodes(view) {
  const words = new Map(view.state.words.map((word, n) => [word.word, wordNode(word, view.before?.words[n])]));
  const head = () => make("tr", {}, ...["word", "coherent", "persisted"].map((name) => make("th", { scope: "col" }, name)));
  return view.layout.map((names, line) => make("table", {},
    make("caption", {}, lineName(line)),
    make("thead", {}, head()),
    make("tbody", {}, ...names.map((name) => words.get(name)))));
}

function showMachine(view) {
  byId("processors").replaceChildren(...view.state.cpus.map((cpu, n) => processorNode(cpu, view.before?.cpus[n])));
  byId("pending").replaceChildren(pendingNode(view));
  byId("memory").replaceChildren(...memoryNodes(view));
}
