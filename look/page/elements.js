"use strict";
// Makes elements. All text comes into the page as text: nothing here reads markup.

const byId = (id) => document.getElementById(id);
const one = (selector) => document.querySelector(selector);
const all = (selector) => [...document.querySelectorAll(selector)];

// An element with attributes, listeners (`onclick` and such), and children. What is null or false is left out.
function make(tag, attributes = {}, ...children) {
  const made = document.createElement(tag);
  for (const [name, value] of Object.entries(attributes)) {
    if (value === undefined || value === null || value === false) continue;
    if (name.startsWith("on")) made.addEventListener(name.slice(2), value);
    else made.setAttribute(name, value === true ? "" : value);
  }
  made.append(...children.flat().filter((child) => child !== null && child !== undefined && child !== false));
  return made;
}

// The names of the classes of which the condition holds.
const classes = (...names) => names.filter(Boolean).join(" ");

// Says something to who does not see the page.
function say(text) {
  byId("said").textContent = "";
  setTimeout(() => { byId("said").textContent = text; }, 30);
}

function showBanner(text) {
  byId("banner").hidden = !text;
  byId("banner").textContent = text;
}

function saveFile(name, content) {
  const url = URL.createObjectURL(new Blob([content], { type: "text/plain" }));
  make("a", { href: url, download: name }).click();
  setTimeout(() => URL.revokeObjectURL(url), 1000);
}

// Waits until nothing was typed for so many milliseconds.
function afterTyping(act, wait) {
  let timer;
  return () => {
    clearTimeout(timer);
    timer = setTimeout(act, wait);
  };
}
