"use strict";
// The address is a link to the state: behind `#`, which no server is sent, are text, steps, place and condition. And what a person
// takes away: commands that make the same steps, and files.

const MOST_LINKED = 60000;
let linked = "";

function packed(data) {
  const bytes = String.fromCharCode(...new TextEncoder().encode(JSON.stringify(data)));
  return btoa(bytes).replace(/\+/g, "-").replace(/\//g, "_").replace(/=+$/, "");
}

const isLinked = (data) => typeof data.text === "string" && typeof data.name === "string" && Number.isInteger(data.at)
  && Array.isArray(data.steps) && data.steps.every((step) => typeof step === "string");

function unpacked(text) {
  try {
    const bytes = atob(text.replace(/-/g, "+").replace(/_/g, "/"));
    const data = JSON.parse(new TextDecoder().decode(Uint8Array.from(bytes, (byte) => byte.charCodeAt(0))));
    return isLinked(data) ? data : null;
  } catch { return null; }
}

function remember() {
  if (S.text.length > MOST_LINKED) {
    history.replaceState(null, "", location.pathname);
    linked = "";
    return;
  }
  linked = `#${packed({ name: S.name, at: S.at, steps: S.steps, text: S.text, conditions: { [kind()]: byId("condition").value } })}`;
  history.replaceState(null, "", linked);
}

function openLink() {
  const data = location.hash === linked ? null : unpacked(location.hash.slice(1));
  if (data && !exported) open(data);
}

const fileName = () => S.name.replace(/[^A-Za-z0-9._+-]/g, "-").replace(/\.(litmus|obj)$/, "") || "run";
const stepLines = () => given().map((step) => `${step}\n`).join("");

function commandLines() {
  const name = fileName(), asked = condition(), quoted = `'${asked.replace(/'/g, "'\\''")}'`;
  const files = `${name}.litmus --steps ${name}.steps`, all = asked ? ` --all ${quoted}` : "";
  return [`px86 run ${files}`, `px86 images ${files} --names${all}`, `px86-look ${files}${all}`];
}

function showExport() {
  byId("export-steps").value = stepLines();
  byId("export-command").value = commandLines().join("\n");
  byId("export-link").value = location.href;
  byId("export-dialog").showModal();
}

const copy = (id) => navigator.clipboard.writeText(byId(id).value).then(() => say("copied"), () => say("not copied"));
