"use strict";

// ---- tables: sort by a click on a heading, filter, copy

function textOf(cell) {
  return cell.dataset.raw === undefined ? cell.textContent.trim() : cell.dataset.raw;
}

function fieldOf(row, column) {
  return row.cells[column] ? textOf(row.cells[column]) : "";
}

function compare(one, other) {
  const first = Number(one), second = Number(other);
  if (one !== "" && other !== "" && !Number.isNaN(first) && !Number.isNaN(second)) {
    return first - second;
  }
  return one.localeCompare(other, undefined, { numeric: true });
}

function sortBy(table, heading) {
  const column = heading.cellIndex, body = table.tBodies[0];
  const direction = heading.getAttribute("aria-sort") === "ascending" ? -1 : 1;
  for (const other of table.tHead.rows[0].cells) {
    other.removeAttribute("aria-sort");
  }
  heading.setAttribute("aria-sort", direction === 1 ? "ascending" : "descending");
  const rows = Array.from(body.rows);
  rows.sort((one, other) => direction * compare(fieldOf(one, column), fieldOf(other, column)));
  body.append(...rows);
}

for (const table of document.querySelectorAll("table.sortable")) {
  for (const heading of table.tHead.rows[0].cells) {
    heading.tabIndex = 0;
    heading.addEventListener("click", () => sortBy(table, heading));
    heading.addEventListener("keydown", (event) => {
      if (event.key === "Enter" || event.key === " ") {
        event.preventDefault();
        sortBy(table, heading);
      }
    });
  }
}

for (const field of document.querySelectorAll("[data-filter]")) {
  const table = document.getElementById(field.dataset.filter), shown = document.getElementById("shown");
  field.addEventListener("input", () => {
    const wanted = field.value.toLowerCase();
    let count = 0;
    for (const row of table.tBodies[0].rows) {
      row.hidden = !row.textContent.toLowerCase().includes(wanted);
      count += row.hidden ? 0 : 1;
    }
    shown.textContent = wanted ? count + " rows" : "";
  });
}

function copy(text, button) {
  navigator.clipboard.writeText(text).then(() => {
    const before = button.textContent;
    button.textContent = "Copied";
    setTimeout(() => { button.textContent = before; }, 1500);
  });
}

for (const button of document.querySelectorAll("[data-copy]")) {
  button.addEventListener("click", () => copy(document.getElementById(button.dataset.copy).textContent, button));
}

for (const button of document.querySelectorAll("[data-copy-table]")) {
  const table = document.getElementById(button.dataset.copyTable);
  button.addEventListener("click", () => {
    const rows = [table.tHead.rows[0], ...Array.from(table.tBodies[0].rows).filter((row) => !row.hidden)];
    copy(rows.map((row) => Array.from(row.cells, textOf).join("\t")).join("\n"), button);
  });
}

// ---- a job: its steps, log and end, as they come

const job = document.getElementById("job");

function showSteps(steps) {
  document.getElementById("steps").replaceChildren(...steps.map((step) => {
    const item = document.createElement("li");
    item.append(step.what);
    if (step.seconds !== null) {
      const seconds = document.createElement("span");
      seconds.className = "seconds";
      seconds.textContent = " " + step.seconds.toFixed(1) + " s";
      item.append(seconds);
    }
    return item;
  }));
}

function showLeft(state) {
  const left = document.getElementById("left");
  if (state.seconds !== null) {
    left.textContent = "after " + state.seconds.toFixed(1) + " s";
  } else if (state.usual !== null && state.status === "running") {
    left.textContent = "the last such run took " + state.usual.toFixed(1) + " s";
  } else {
    left.textContent = "";
  }
}

function show(state) {
  const status = document.getElementById("status");
  status.textContent = state.status;
  status.className = "status " + state.status;
  showSteps(state.steps);
  showLeft(state);
  document.getElementById("log").textContent = state.log;
  document.getElementById("answer").textContent = state.answer;
  const hasEnded = !["waiting", "running"].includes(state.status);
  document.getElementById("cancel").hidden = hasEnded;
  document.getElementById("next").hidden = !(hasEnded && state.folder);
  const failed = document.getElementById("failed"), again = document.getElementById("again");
  const download = document.getElementById("download");
  if (download && state.file) {
    download.href = "/file?name=" + encodeURIComponent(state.file);
    download.hidden = false;
  }
  if (again) {
    again.hidden = !["failed", "lost"].includes(state.status);
  }
  if (failed) {
    failed.hidden = !hasEnded || state.folder !== "";
    document.getElementById("busy").hidden = hasEnded;
  }
  return hasEnded;
}

if (job && job.dataset.ended === "no") {
  const events = new EventSource("/job/events?number=" + job.dataset.number);
  events.onmessage = (event) => {
    const state = JSON.parse(event.data), next = document.getElementById("next");
    if (show(state)) {
      events.close();
      if (next.dataset.follow && state.folder) {
        location.assign(next.querySelector("a").href);
      }
    }
  };
}

// ---- the text of a project: the line that is wrong, changes that are not saved, Ctrl+S

const editor = document.querySelector("textarea.project");

function showLine(line) {
  const lines = editor.value.split("\n");
  const start = lines.slice(0, line - 1).reduce((sum, it) => sum + it.length + 1, 0);
  const height = parseFloat(getComputedStyle(editor).lineHeight);
  editor.focus({ preventScroll: true });
  editor.setSelectionRange(start, start + (lines[line - 1] || "").length);
  editor.scrollTop = Math.max(0, line - 6) * height;
}

if (editor && !editor.readOnly) {
  let isSent = false;
  const isUnsaved = () => editor.dataset.unsaved === "yes" || editor.value !== editor.defaultValue;
  const mark = () => {
    document.getElementById("unsaved").textContent = isUnsaved() ? "not saved yet" : "";
  };
  editor.form.addEventListener("submit", () => { isSent = true; });
  editor.addEventListener("input", mark);
  editor.addEventListener("keydown", (event) => {
    if ((event.ctrlKey || event.metaKey) && event.key === "s") {
      event.preventDefault();
      editor.form.requestSubmit(document.getElementById("save"));
    }
  });
  window.addEventListener("beforeunload", (event) => {
    if (!isSent && isUnsaved()) {
      event.preventDefault();
    }
  });
  mark();
  if (editor.dataset.line && location.hash === "#editor") {
    // After the browser has gone to the editor, which takes the focus away.
    window.addEventListener("load", () => setTimeout(() => showLine(Number(editor.dataset.line)), 0));
  }
}
