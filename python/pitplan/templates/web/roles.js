"use strict";

// ---- another role of a column: the project that follows is shown at once

const form = document.getElementById("roles");
const by = (id) => document.getElementById(id);
const selects = Array.from(form.querySelectorAll("select"));
let asked = 0, before = "";

function isChanged() {
  return selects.some((it) => it.value !== it.dataset.was);
}

function shown(words) {
  by("wrong-role").textContent = words;
  by("wrong-role").hidden = words === "";
}

function showText(text) {
  const old = new Set(before.split("\n"));
  by("preview-text").replaceChildren(...text.split("\n").flatMap((line) => {
    const part = document.createElement(old.has(line) ? "span" : "mark");
    part.textContent = line;
    return [part, "\n"];
  }));
  by("preview").hidden = false;
}

function showColumns(columns) {
  for (const it of columns) {
    const select = selects.find((one) => one.name === "role:" + it.column), row = select.closest("tr");
    select.value = it.set;
    row.classList.toggle("unused", it.role === "not used");
    row.classList.toggle("changed", select.value !== select.dataset.was);
    for (const cell of row.querySelectorAll("[data-field]")) {
      cell.textContent = it[cell.dataset.field];
    }
  }
}

function showWarnings(warnings) {
  by("warnings").hidden = warnings.length === 0;
  by("warned").replaceChildren(...warnings.map((words) => {
    const item = document.createElement("li");
    item.className = "bad";
    item.textContent = words;
    return item;
  }));
}

async function ask() {
  const answer = await fetch("/import/preview", { method: "POST", body: new URLSearchParams(new FormData(form)) });
  return answer.ok ? { found: await answer.json(), why: "" } : { found: null, why: await answer.text() };
}

async function preview() {
  const mine = ++asked;
  by("role-state").textContent = "reading ..";
  by("write-roles").disabled = true;
  try {
    const { found, why } = await ask();
    if (mine !== asked) {
      return;
    }
    shown(why);
    by("preview").hidden = found === null;
    if (found) {
      showColumns(found.columns);
      showWarnings(found.warnings);
      showText(found.text);
    }
    by("write-roles").disabled = found === null || !isChanged();
    by("role-state").textContent = found && isChanged() ? "not written yet" : "";
  } catch (error) {
    by("role-state").textContent = "";
    shown("The server does not answer. Check that pitplan serve runs, and choose the role again.");
  }
}

// Read at once, so that a change of a role finds the file read.
ask().then(({ found }) => { before = found ? found.text : ""; }).catch(() => { before = ""; });
form.addEventListener("change", preview);
