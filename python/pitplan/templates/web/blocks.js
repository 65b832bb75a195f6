"use strict";

// ---- plans and sections: the arrays come once, and each slice is drawn from them

const el = (id) => document.getElementById(id);
const box = el("blocks");
const NONE = 0x00000000, UNKNOWN = 0xff9a9a9a;

function packed(hex) {
  const part = (k) => parseInt(hex.slice(k, k + 2), 16);
  return (0xff000000 | (part(5) << 16) | (part(3) << 8) | part(1)) >>> 0;
}

function shown(number, digits = 6) {
  return Number(number.toPrecision(digits)).toLocaleString("en", { maximumFractionDigits: 6 });
}

async function fetched(path, more = {}) {
  const answer = await fetch(path + "?" + new URLSearchParams({ name: box.dataset.name, ...more }));
  if (!answer.ok) {
    throw new Error(await answer.text());
  }
  return answer;
}

class Model {
  constructor(info, cells) {
    [this.levels, this.rows, this.columns] = info.shape;
    this.info = info;
    this.rowOf = new Int32Array(this.levels * this.rows * this.columns).fill(-1);
    cells.forEach((cell, row) => { this.rowOf[cell] = row; });
    this.known = new Map();
  }

  cell(level, row, column) {
    return (level * this.rows + row) * this.columns + column;
  }

  async column(name) {
    if (!this.known.has(name)) {
      const said = await (await fetched("/blocks/column", { column: name })).json();
      const bytes = await (await fetched("/blocks/values", { column: name })).arrayBuffer();
      said.values = said.labels.length ? new Uint8Array(bytes) : new Float32Array(bytes);
      said.shades = (said.labels.length ? said.colours : this.info.gradient).map(packed);
      this.known.set(name, said);
    }
    return this.known.get(name);
  }
}

function shadeOf(column) {
  const { values, shades, least, most } = column;
  if (column.labels.length) {
    return (row) => (values[row] === 0 ? UNKNOWN : shades[values[row] - 1]);
  }
  const low = Math.min(least, 0) < 0 ? least : 0, scale = (shades.length - 1) / ((most - low) || 1);
  return (row) => {
    const value = values[row];
    return Number.isNaN(value) ? UNKNOWN : shades[Math.max(0, Math.min(shades.length - 1, Math.round((value - low) * scale)))];
  };
}

// A view: which cell lies at a place of its picture, and how its axes are called.
class View {
  constructor(id, model, state) {
    this.canvas = el(id);
    this.id = id;
    this.model = model;
    this.state = state;
    const { levels, rows, columns } = model, [dx, dy, dz] = model.info.size;
    const shapes = { plan: [columns, rows, dx, dy], across: [columns, levels, dx, dz], along: [rows, levels, dy, dz] };
    [this.wide, this.high, this.step, this.rise] = shapes[id];
    this.picture = document.createElement("canvas");
    this.picture.width = this.wide;
    this.picture.height = this.high;
    this.marks = [];
  }

  // Level, row and column of the picture's cell, from its upper left corner.
  place(x, y) {
    const { level, row, column } = this.state, { rows } = this.model;
    return {
      plan: [level, rows - 1 - y, x],
      across: [y, row, x],
      along: [y, x, column],
    }[this.id];
  }

  fit() {
    const ratio = window.devicePixelRatio || 1, wide = this.canvas.clientWidth;
    const high = Math.max(120, Math.min(0.66 * window.innerHeight, (wide - 70) * (this.high * this.rise) / (this.wide * this.step) + 34));
    this.canvas.style.height = high + "px";
    this.canvas.width = Math.round(wide * ratio);
    this.canvas.height = Math.round(high * ratio);
    this.scale = Math.min((wide - 70) / (this.wide * this.step), (high - 34) / (this.high * this.rise));
    this.left = 60;
    this.top = 6;
    this.ratio = ratio;
  }

  draw(shade, pit) {
    const image = new ImageData(this.wide, this.high), pixels = new Uint32Array(image.data.buffer);
    const { rowOf } = this.model;
    for (let y = 0, k = 0; y < this.high; y++) {
      for (let x = 0; x < this.wide; x++, k++) {
        const row = rowOf[this.model.cell(...this.place(x, y))];
        pixels[k] = row < 0 ? NONE : shade(row);
      }
    }
    this.picture.getContext("2d").putImageData(image, 0, 0);
    const pen = this.canvas.getContext("2d"), style = getComputedStyle(document.body);
    pen.setTransform(this.ratio, 0, 0, this.ratio, 0, 0);
    pen.clearRect(0, 0, this.canvas.width, this.canvas.height);
    pen.imageSmoothingEnabled = false;
    pen.drawImage(this.picture, this.left, this.top, this.wide * this.step * this.scale, this.high * this.rise * this.scale);
    this.outline(pen, pit);
    this.cross(pen);
    this.axes(pen, style.color);
    for (const mark of this.marks) {
      mark(pen, this);
    }
  }

  // The edges between blocks in the pit and others.
  outline(pen, pit) {
    if (!pit) {
      return;
    }
    const inside = (x, y) => {
      if (x < 0 || y < 0 || x >= this.wide || y >= this.high) {
        return false;
      }
      const row = this.model.rowOf[this.model.cell(...this.place(x, y))];
      return row >= 0 && pit(row);
    };
    const dx = this.step * this.scale, dy = this.rise * this.scale;
    pen.beginPath();
    for (let y = 0; y <= this.high; y++) {
      for (let x = 0; x <= this.wide; x++) {
        const it = inside(x, y), px = this.left + x * dx, py = this.top + y * dy;
        if (it !== inside(x - 1, y)) {
          pen.moveTo(px, py);
          pen.lineTo(px, py + dy);
        }
        if (it !== inside(x, y - 1)) {
          pen.moveTo(px, py);
          pen.lineTo(px + dx, py);
        }
      }
    }
    pen.strokeStyle = "#ffffff";
    pen.lineWidth = 3;
    pen.stroke();
    pen.strokeStyle = "#000000";
    pen.lineWidth = 1.5;
    pen.stroke();
  }

  // Where the other views cut this one.
  cross(pen) {
    const { level, row, column } = this.state, { rows } = this.model;
    const [x, y] = { plan: [column, rows - 1 - row], across: [column, level], along: [row, level] }[this.id];
    const px = this.left + (x + 0.5) * this.step * this.scale, py = this.top + (y + 0.5) * this.rise * this.scale;
    pen.beginPath();
    pen.moveTo(px, this.top);
    pen.lineTo(px, this.top + this.high * this.rise * this.scale);
    pen.moveTo(this.left, py);
    pen.lineTo(this.left + this.wide * this.step * this.scale, py);
    pen.setLineDash([4, 4]);
    pen.strokeStyle = "#d0342c";
    pen.lineWidth = 1;
    pen.stroke();
    pen.setLineDash([]);
  }

  // The places of the axes in metres: those along the picture, and those down.
  span() {
    const { corner, size } = this.model.info, { levels, rows, columns } = this.model;
    const [west, south, top] = corner;
    const east = [west, west + columns * size[0]], north = [south, south + rows * size[1]], up = [top, top - levels * size[2]];
    return { plan: [east, [north[1], north[0]]], across: [east, up], along: [north, up] }[this.id];
  }

  axes(pen, ink) {
    const [along, down] = this.span(), wide = this.wide * this.step * this.scale, high = this.high * this.rise * this.scale;
    pen.strokeStyle = ink;
    pen.lineWidth = 0.5;
    pen.strokeRect(this.left, this.top, wide, high);
    pen.fillStyle = ink;
    pen.font = "11px system-ui, sans-serif";
    pen.textAlign = "center";
    for (const value of ticks(...along, wide / 90)) {
      pen.fillText(shown(value, 9), this.left + wide * (value - along[0]) / (along[1] - along[0]), this.top + high + 16);
    }
    pen.textAlign = "right";
    for (const value of ticks(down[1], down[0], high / 40)) {
      pen.fillText(shown(value, 9), this.left - 5, this.top + 4 + high * (down[0] - value) / (down[0] - down[1]));
    }
  }

  // The cell at a place of the page, and its coordinates along the axes.
  at(event) {
    const area = this.canvas.getBoundingClientRect();
    const fx = (event.clientX - area.left - this.left) / (this.step * this.scale);
    const fy = (event.clientY - area.top - this.top) / (this.rise * this.scale);
    const [x, y] = [Math.floor(fx), Math.floor(fy)];
    if (x < 0 || y < 0 || x >= this.wide || y >= this.high) {
      return null;
    }
    const [along, down] = this.span();
    return { place: this.place(x, y), along: along[0] + fx * this.step, down: down[0] - fy * this.rise };
  }
}

function ticks(first, last, count) {
  const rough = Math.abs(last - first) / Math.max(1, count), power = 10 ** Math.floor(Math.log10(rough));
  const step = [1, 2, 5, 10].map((it) => it * power).find((it) => it >= rough);
  const found = [];
  for (let value = Math.ceil(first / step) * step; value <= last + 1e-9; value += step) {
    found.push(value);
  }
  return found;
}

function legend(column) {
  const parts = column.labels.map((label, k) => {
    const item = document.createElement("span"), patch = document.createElement("canvas");
    patch.width = patch.height = 12;
    const pen = patch.getContext("2d");
    pen.fillStyle = column.colours[k];
    pen.fillRect(0, 0, 12, 12);
    item.append(patch, " " + label);
    return item;
  });
  if (!parts.length) {
    const strip = document.createElement("canvas"), item = document.createElement("span");
    strip.width = 256;
    strip.height = 12;
    const pen = strip.getContext("2d"), low = Math.min(column.least, 0), unit = column.unit ? " " + column.unit : "";
    app.model.info.gradient.forEach((hex, k, all) => {
      pen.fillStyle = hex;
      pen.fillRect(Math.floor(k * 256 / all.length), 0, Math.ceil(256 / all.length) + 1, 12);
    });
    item.append(shown(low) + " ", strip, " " + shown(column.most) + unit + (column.greatest > column.most ? " and more, up to " + shown(column.greatest) : ""));
    parts.push(item);
    if (column.nulls) {
      const patch = document.createElement("canvas"), said = document.createElement("span");
      patch.width = patch.height = 12;
      const fill = patch.getContext("2d");
      fill.fillStyle = "#9a9a9a";
      fill.fillRect(0, 0, 12, 12);
      said.append(patch, " null, read as 0: " + shown(column.nulls) + " blocks");
      parts.push(said);
    }
  }
  el("legend").replaceChildren(...parts);
}

class App {
  constructor(model) {
    this.model = model;
    this.state = { level: 0, row: Math.floor(model.rows / 2), column: Math.floor(model.columns / 2) };
    this.views = ["plan", "across", "along"].map((id) => new View(id, model, this.state));
    this.onPlan = null;
    this.pending = false;
  }

  async start() {
    const { info } = this.model;
    el("colour").append(...info.columns.map((it) => new Option(it.unit ? it.name + " (" + it.unit + ")" : it.name, it.name)));
    el("outline").append(...info.factors.map((it) => new Option("revenue factor " + it.toFixed(3).replace(/0$/, ""), it)));
    el("outline-of").hidden = info.factors.length === 0;
    el("outline").value = info.selected || 0;
    if (info.factors.length) {
      this.factor = await this.model.column("revenue_factor");
    }
    await this.colour();
    this.sliders();
    this.richest();
    el("reading").hidden = true;
    box.hidden = false;
    this.events();
    this.resize();
  }

  sliders() {
    const { levels, rows, columns } = this.model;
    for (const [id, count, key] of [["bench", levels, "level"], ["row", rows, "row"], ["column", columns, "column"]]) {
      el(id).max = count - 1;
      el(id).addEventListener("input", () => {
        // The highest bench lies to the right.
        this.state[key] = id === "bench" ? count - 1 - el(id).valueAsNumber : el(id).valueAsNumber;
        this.redraw();
      });
    }
  }

  // The slices through the greatest value of the first column.
  richest() {
    const { values } = this.column;
    let best = 0;
    for (let row = 1; row < values.length; row++) {
      best = values[row] > values[best] || Number.isNaN(values[best]) ? row : best;
    }
    const cell = this.model.rowOf.indexOf(best), { rows, columns } = this.model;
    if (cell >= 0) {
      this.state.level = Math.floor(cell / (rows * columns));
      this.state.row = Math.floor(cell / columns) % rows;
      this.state.column = cell % columns;
    }
  }

  async colour() {
    this.column = await this.model.column(el("colour").value);
    this.shade = shadeOf(this.column);
    legend(this.column);
  }

  say() {
    const { level, row, column } = this.state, { info, levels } = this.model, [dx, dy, dz] = info.size, [west, south, top] = info.corner;
    const [east, north] = info.axes;
    el("bench").value = levels - 1 - level;
    el("row").value = row;
    el("column").value = column;
    el("bench-at").textContent = "toe " + shown(top - (level + 1) * dz, 9) + " m";
    el("row-at").textContent = north + " " + shown(south + (row + 0.5) * dy, 9) + " m";
    el("column-at").textContent = east + " " + shown(west + (column + 0.5) * dx, 9) + " m";
    el("across-says").textContent = "Section at " + el("row-at").textContent + ", looking north";
    el("along-says").textContent = "Section at " + el("column-at").textContent + ", looking west";
  }

  redraw() {
    if (this.pending) {
      return;
    }
    this.pending = true;
    requestAnimationFrame(() => {
      this.pending = false;
      const began = performance.now(), factor = Number(el("outline").value), of = this.factor && this.factor.values;
      const pit = factor > 0 && of ? (row) => of[row] > 0 && of[row] <= factor + 1e-6 : null;
      this.say();
      for (const view of this.views) {
        view.draw(this.shade, pit);
      }
      document.body.dataset.milliseconds = (performance.now() - began).toFixed(1);
    });
  }

  resize() {
    for (const view of this.views) {
      view.fit();
    }
    this.redraw();
  }

  events() {
    window.addEventListener("resize", () => this.resize());
    window.matchMedia("(prefers-color-scheme: dark)").addEventListener("change", () => this.redraw());
    el("colour").addEventListener("change", () => this.colour().then(() => this.redraw()).catch(failed));
    el("outline").addEventListener("change", () => this.redraw());
    for (const view of this.views) {
      view.canvas.addEventListener("mousemove", (event) => this.point(view.at(event)));
      view.canvas.addEventListener("click", (event) => this.pick(view, view.at(event)));
      view.canvas.addEventListener("keydown", (event) => this.move(view, event));
    }
  }

  // Arrow keys move the slices that cut a view.
  move(view, event) {
    const keys = { plan: ["column", "row", -1], across: ["column", "level", 1], along: ["row", "level", 1] }[view.id];
    const [along, down, turn] = keys;
    const steps = { ArrowRight: [along, 1], ArrowLeft: [along, -1], ArrowDown: [down, turn], ArrowUp: [down, -turn] };
    const step = steps[event.key], most = { level: this.model.levels, row: this.model.rows, column: this.model.columns };
    if (step) {
      event.preventDefault();
      this.state[step[0]] = Math.max(0, Math.min(most[step[0]] - 1, this.state[step[0]] + step[1]));
      this.redraw();
    }
  }

  point(found) {
    if (!found) {
      return;
    }
    const [level, row, column] = found.place, { info } = this.model, [dx, dy, dz] = info.size, [west, south, top] = info.corner;
    const at = [info.axes[0], west + (column + 0.5) * dx, info.axes[1], south + (row + 0.5) * dy, "elevation", top - (level + 0.5) * dz];
    const place = at.map((it) => (typeof it === "number" ? shown(it, 9) + " m" : it)).join(" ");
    const of = this.model.rowOf[this.model.cell(...found.place)];
    el("under").textContent = place + ": " + (of < 0 ? "no block" : this.words(of));
  }

  words(row) {
    const { values, labels, unit, name } = this.column, value = values[row];
    const number = Number.isNaN(value) ? "null, read as 0" : shown(value) + (unit ? " " + unit : "");
    const said = labels.length ? (value ? labels[value - 1] : "none") : number;
    return name + " " + said;
  }

  pick(view, found) {
    if (!found) {
      return;
    }
    if (view.id === "plan" && this.onPlan) {
      this.onPlan(found);
      return;
    }
    [this.state.level, this.state.row, this.state.column] = found.place;
    this.redraw();
    this.point(found);
    this.row(this.model.cell(...found.place)).catch(failed);
  }

  async row(cell) {
    const fields = await (await fetched("/blocks/row", { cell })).json();
    el("row-fields").replaceChildren(...Object.entries(fields).flatMap(([name, value]) => {
      const [term, words] = [document.createElement("dt"), document.createElement("dd")];
      term.textContent = name;
      words.textContent = value;
      return [term, words];
    }));
  }
}

function failed(error) {
  el("reading").hidden = true;
  el("problem").hidden = false;
  el("problem").textContent = error.message || "The server does not answer. Check that pitplan serve runs, and open the page again.";
}

let app = null;

async function begin() {
  const info = await (await fetched("/blocks/model")).json();
  const cells = new Uint32Array(await (await fetched("/blocks/cells")).arrayBuffer());
  app = new App(new Model(info, cells));
  await app.start();
  document.dispatchEvent(new Event("blocks"));
}

begin().catch(failed);
