"use strict";

// ---- grids: rows are added and removed, cells are reached by arrow keys, and cells of a spreadsheet are pasted

// A number with separators of thousands that cannot be anything else.
const GROUPED = /^-?\d{1,3}(,\d{3})+\.\d+$|^-?\d{1,3}(,\d{3}){2,}$/;

class Grid {
  constructor(form) {
    this.form = form;
    this.body = form.querySelector("tbody");
    this.heads = Array.from(form.querySelectorAll("thead th[data-key]"));
    this.blank = this.body.rows[this.body.rows.length - 1].cloneNode(true);
    form.querySelector(".add").addEventListener("click", () => this.cell(this.add(), this.shown()[0]).focus());
    form.addEventListener("click", (event) => {
      if (event.target.classList.contains("remove")) {
        this.remove(event.target.closest("tr"));
      }
    });
    form.addEventListener("keydown", (event) => this.move(event));
    form.addEventListener("paste", (event) => this.paste(event));
    form.addEventListener("input", () => this.grow());
    const more = form.querySelector(".more select");
    if (more) {
      more.addEventListener("change", () => this.show(more));
    }
  }

  shown() {
    return this.heads.map((head, k) => k).filter((k) => !this.heads[k].hidden);
  }

  cell(row, column) {
    return row.cells[column + 1].querySelector("input");
  }

  isEmpty(row) {
    return row.querySelector("input[type=hidden]").value === "new"
      && Array.from(row.querySelectorAll("td input")).every((it) => it.value === "");
  }

  add() {
    const row = this.blank.cloneNode(true);
    for (const cell of row.querySelectorAll("td")) {
      cell.hidden = this.heads[cell.cellIndex - 1].hidden;
      cell.querySelector("input").value = "";
    }
    this.body.append(row);
    this.number();
    return row;
  }

  // There is an empty row at the end, always.
  grow() {
    if (!this.isEmpty(this.body.rows[this.body.rows.length - 1])) {
      this.add();
    }
  }

  remove(row) {
    const near = row.nextElementSibling || row.previousElementSibling;
    row.remove();
    if (this.body.rows.length === 0) {
      this.add();
    }
    this.grow();
    this.number();
    this.form.dispatchEvent(new Event("change"));
    const to = near && near.isConnected ? near : this.body.rows[0];
    this.cell(to, this.shown()[0]).focus();
  }

  number() {
    Array.from(this.body.rows).forEach((row, number) => {
      row.querySelector("input[type=hidden]").name = "row:" + number;
      row.querySelector(".number").textContent = number + 1;
      row.querySelector(".remove").setAttribute("aria-label", "Remove row " + (number + 1));
      for (const cell of row.querySelectorAll("td")) {
        const k = cell.cellIndex - 1, head = this.heads[k], unit = head.querySelector(".unit").textContent;
        const input = cell.querySelector("input");
        input.name = "cell:" + number + ":" + k;
        input.setAttribute("aria-label", this.form.dataset.word + " " + (number + 1) + ", " + head.dataset.label + (unit ? ", " + unit : ""));
      }
    });
  }

  show(more) {
    const column = this.heads.findIndex((head) => head.dataset.key === more.value);
    if (column >= 0) {
      this.reveal(column);
      this.cell(this.body.rows[0], column).focus();
    }
  }

  reveal(column) {
    this.heads[column].hidden = this.blank.cells[column + 1].hidden = false;
    for (const row of this.body.rows) {
      row.cells[column + 1].hidden = false;
    }
    const option = this.form.querySelector(".more option[value='" + CSS.escape(this.heads[column].dataset.key) + "']");
    if (option) {
      option.remove();
    }
  }

  move(event) {
    const input = event.target, cell = input.closest("td");
    if (!cell || event.ctrlKey || event.altKey || event.metaKey || event.isComposing) {
      return;
    }
    const row = cell.parentElement, columns = this.shown(), place = columns.indexOf(cell.cellIndex - 1);
    const [start, end] = [input.selectionStart, input.selectionEnd], all = start === 0 && end === input.value.length;
    let to = null;
    if (event.key === "ArrowDown" || (event.key === "Enter" && !event.shiftKey)) {
      to = row.nextElementSibling && this.cell(row.nextElementSibling, columns[place]);
    } else if (event.key === "ArrowUp" || event.key === "Enter") {
      to = row.previousElementSibling && this.cell(row.previousElementSibling, columns[place]);
    } else if (event.key === "ArrowRight" && (all || start === input.value.length) && place + 1 < columns.length) {
      to = this.cell(row, columns[place + 1]);
    } else if (event.key === "ArrowLeft" && (all || end === 0) && place > 0) {
      to = this.cell(row, columns[place - 1]);
    } else {
      return;
    }
    // Enter in a cell does not send the form.
    event.preventDefault();
    if (to) {
      to.focus();
      to.select();
    }
  }

  // Cells with tabs between; a first line of keys, as of a table of periods, names their columns.
  paste(event) {
    const cell = event.target.closest("td"), text = event.clipboardData.getData("text/plain");
    if (!cell || !/[\t\n]/.test(text.trimEnd())) {
      return;
    }
    event.preventDefault();
    const lines = text.replace(/\r/g, "").replace(/\n+$/, "").split("\n").map((line) => line.split("\t"));
    const keys = lines[0].map((word) => this.heads.findIndex((it) => [it.dataset.key, it.dataset.label].includes(word.trim())));
    const columns = keys.every((k) => k >= 0) ? keys : this.shown().filter((k) => k >= cell.cellIndex - 1);
    if (columns === keys) {
      lines.shift();
      keys.forEach((k) => this.reveal(k));
    }
    let row = cell.parentElement;
    for (const line of lines) {
      line.slice(0, columns.length).forEach((word, k) => {
        const plain = word.trim();
        this.cell(row, columns[k]).value = GROUPED.test(plain) ? plain.replaceAll(",", "") : plain;
      });
      row = row.nextElementSibling || this.add();
    }
    this.grow();
    this.form.dispatchEvent(new Event("change"));
  }
}

for (const form of document.querySelectorAll("form.grid")) {
  new Grid(form);
}

// What is typed in one form is not lost, unasked, when another one is saved.
const typed = new Set();
let sent = null;
for (const form of document.querySelectorAll("form.grid, form.numbers")) {
  for (const kind of ["input", "change"]) {
    form.addEventListener(kind, () => typed.add(form));
  }
  form.addEventListener("submit", () => { sent = form; });
}
window.addEventListener("beforeunload", (event) => {
  if (Array.from(typed).some((it) => it !== sent)) {
    event.preventDefault();
  }
});

// The part of the page that an address names is open.
function open() {
  const part = location.hash.length > 1 ? document.getElementById(decodeURIComponent(location.hash.slice(1))) : null;
  if (part && part.tagName === "DETAILS") {
    part.open = true;
  }
}

open();
window.addEventListener("hashchange", open);
