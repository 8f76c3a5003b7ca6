"use strict";
// The text: what is executed where, where the newest entry of each line is, and the editor with the fault at its line.

const codeOf = (line) => line.replace(/#.*/, "").trimEnd();
const lineText = (number) => codeOf(S.text.split("\n")[number - 1] || "").trim();

// How many lines the comment at the head has, up to the line of the fault. It says what the text is about, and is folded.
function headLength(lines) {
  let count = 0;
  while (count < lines.length && /^\s*(#|$)/.test(lines[count]) && S.fault?.line !== count + 1) count++;
  return count;
}

function showAbout(lines) {
  const about = lines.map((line) => line.replace(/^\s*#\s?/, "").trim()).join("\n").trim();
  byId("about").hidden = !about;
  byId("about").querySelector("p").textContent = about;
}

function markNode(cpu) {
  const about = `processor ${cpu} is here`;
  return make("span", { class: "cpu-mark", title: about, "aria-label": about, role: "img" }, String(cpu));
}

function textLineNode(line, number, cpus, tag) {
  const code = codeOf(line), note = line.slice(code.length).trim();
  const about = { "data-source": String(number), "aria-current": cpus.length ? "step" : null };
  return make("li", { ...about, class: classes(cpus.length && "at", S.fault?.line === number && "fault-line") },
    make("span", { class: "marks" }, ...cpus.map(markNode)),
    make("span", { class: "number" }, String(number)),
    make("span", { class: "code", title: code.length > 24 ? code : null }, code),
    make("span", { class: "note", title: note || null }, note),
    tag && make("span", { class: `tag ${tag}` }, tag));
}

function showText(view) {
  const lines = S.text.replace(/\n$/, "").split("\n"), head = headLength(lines);
  const cpusAt = (number) => (S.fault ? [] : view.state.cpus.filter((cpu) => cpu.line === number).map((cpu) => cpu.cpu));
  showAbout(lines.slice(0, head));
  byId("text").replaceChildren(...lines.slice(head).map((line, n) => {
    const number = n + 1 + head;
    return textLineNode(line, number, cpusAt(number), S.fault ? null : view.tags[number]);
  }));
}

function showFault() {
  const fault = S.fault;
  byId("text-fault").hidden = !fault;
  byId("text-fault").textContent = fault ? `${[fault.number, fault.name, fault.place].filter(Boolean).join(" ")}\n${fault.told}` : "";
  // What stands beside a text that px86 could not read is of the last one that it could.
  for (const id of ["machine", "side", "run"]) byId(id).inert = Boolean(fault);
  document.body.classList.toggle("stale", Boolean(fault));
  showGutter();
}

function showGutter() {
  const count = byId("source").value.split("\n").length;
  const numberNode = (n) => make("span", { class: classes(S.fault?.line === n && "fault-line") }, String(n));
  byId("gutter").replaceChildren(...Array.from({ length: count }, (_, n) => [numberNode(n + 1), "\n"]).flat());
  byId("gutter").scrollTop = byId("source").scrollTop;
}

function edit() {
  S.editing = !S.editing;
  byId("edit").setAttribute("aria-pressed", String(S.editing));
  byId("editor").hidden = !S.editing;
  byId("text").hidden = S.editing;
  showGutter();
  if (S.editing) byId("source").focus();
}
