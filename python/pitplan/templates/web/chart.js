"use strict";

// ---- charts: bars and lines by category, drawn as SVG; values of a category are shown when it is pointed at or reached by keys

const SVG = "http://www.w3.org/2000/svg";
const HIGH = 300, TOP = 12, BOTTOM = 44, SIDE = 64;

function node(name, attributes = {}, words = "") {
  const found = document.createElementNS(SVG, name);
  for (const [key, value] of Object.entries(attributes)) {
    found.setAttribute(key, value);
  }
  found.textContent = words;
  return found;
}

function told(value) {
  return value === null ? "none" : Number(value.toPrecision(4)).toLocaleString("en", { maximumFractionDigits: 6 });
}

function steps(least, most) {
  const rough = (most - least || 1) / 5, power = 10 ** Math.floor(Math.log10(rough));
  const step = [1, 2, 2.5, 5, 10].map((it) => it * power).find((it) => it >= rough - 1e-12);
  const found = [];
  for (let k = Math.floor(least / step + 1e-9); k <= Math.ceil(most / step - 1e-9); k++) {
    found.push(k * step);
  }
  return found;
}

class Chart {
  constructor(figure) {
    this.figure = figure;
    this.data = JSON.parse(figure.dataset.chart);
    this.chosen = new Set();
    this.draw();
    new ResizeObserver(() => this.draw()).observe(figure);
  }

  // From least to most of both scales; bars lie one on the other.
  range(axis) {
    const zeros = () => this.data.categories.map(() => 0), sums = { above: zeros(), below: zeros() };
    for (const one of this.data.series.filter((it) => it.axis === axis)) {
      one.values.forEach((value, k) => {
        if (one.kind === "bar") {
          const side = value < 0 ? sums.below : sums.above;
          side[k] += value || 0;
        } else if (value !== null) {
          sums.above.push(value);
          sums.below.push(value);
        }
      });
    }
    const all = steps(Math.min(0, ...sums.below), Math.max(0, ...sums.above));
    return { all, least: all[0], most: all[all.length - 1] };
  }

  draw() {
    const wide = this.figure.clientWidth;
    if (!wide || wide === this.wide) {
      return;
    }
    this.wide = wide;
    const svg = node("svg", { width: wide, height: HIGH, role: "group", "aria-label": this.data.title });
    this.left = this.range("left");
    this.right = this.range("right");
    this.across = wide - 2 * SIDE;
    this.axes(svg);
    const bars = node("g"), lines = node("g", { "pointer-events": "none" }), hits = node("g");
    svg.append(bars, lines, hits);
    this.bars(bars);
    this.data.series.filter((it) => it.kind === "line").forEach((it) => this.line(lines, it));
    this.hits(hits);
    this.figure.querySelector(".chart-place").replaceChildren(svg);
    this.mark();
  }

  y(value, axis) {
    const { least, most } = axis === "right" ? this.right : this.left;
    return TOP + (HIGH - TOP - BOTTOM) * (most - value) / ((most - least) || 1);
  }

  x(k) {
    return SIDE + this.across * (k + 0.5) / this.data.categories.length;
  }

  axes(svg) {
    const { left, right, along, categories, series } = this.data, sides = [["left", SIDE - 6, "end", left]];
    if (series.some((it) => it.axis === "right")) {
      sides.push(["right", this.wide - SIDE + 6, "start", right]);
    }
    for (const [axis, x, anchor, unit] of sides) {
      for (const value of this[axis].all) {
        const y = this.y(value, axis);
        svg.append(node("text", { x, y: y + 4, "text-anchor": anchor, class: "tick" }, told(value)));
        if (axis === "left") {
          svg.append(node("line", { x1: SIDE, x2: this.wide - SIDE, y1: y, y2: y, class: value === 0 ? "zero" : "grid-line" }));
        }
      }
      const place = axis === "left" ? 12 : this.wide - 8;
      svg.append(node("text", { x: place, y: (HIGH - BOTTOM) / 2, class: "unit", "text-anchor": "middle", transform: "rotate(-90 " + place + " " + (HIGH - BOTTOM) / 2 + ")" }, unit));
    }
    const every = Math.ceil(categories.length * 34 / this.across);
    categories.forEach((words, k) => {
      if (k % every === 0) {
        svg.append(node("text", { x: this.x(k), y: HIGH - BOTTOM + 18, "text-anchor": "middle", class: "tick" }, words));
      }
    });
    svg.append(node("text", { x: this.wide / 2, y: HIGH - 6, "text-anchor": "middle", class: "unit" }, along));
  }

  bars(group) {
    const wide = Math.max(2, 0.72 * this.across / this.data.categories.length), above = [], below = [];
    for (const one of this.data.series.filter((it) => it.kind === "bar")) {
      one.values.forEach((value, k) => {
        if (!value) {
          return;
        }
        const sums = value < 0 ? below : above, from = sums[k] || 0, to = from + value;
        sums[k] = to;
        const [y, end] = [this.y(Math.max(from, to), one.axis), this.y(Math.min(from, to), one.axis)];
        group.append(node("rect", { x: this.x(k) - wide / 2, y, width: wide, height: Math.max(0, end - y), fill: one.colour }));
      });
    }
  }

  line(group, one) {
    const points = one.values.map((value, k) => (value === null ? null : [this.x(k), this.y(value, one.axis)]));
    const path = points.map((it, k) => (it === null ? "" : (k && points[k - 1] ? "L" : "M") + it.join(" "))).join("");
    group.append(node("path", { d: path, fill: "none", stroke: one.colour, "stroke-width": 2.5 }));
    points.filter((it) => it).forEach(([x, y]) => group.append(node("circle", { cx: x, cy: y, r: 3, fill: one.colour })));
  }

  // A place for each category, which is pointed at, reached by keys and chosen.
  hits(group) {
    const wide = this.across / this.data.categories.length, mayChoose = "choose" in this.figure.dataset;
    this.data.categories.forEach((words, k) => {
      const hit = node("rect", { x: this.x(k) - wide / 2, y: TOP, width: wide, height: HIGH - TOP - BOTTOM, class: "hit", "data-category": words });
      hit.setAttribute("aria-label", this.words(k));
      hit.classList.toggle("marked", words === this.data.mark);
      hit.setAttribute("role", mayChoose ? "button" : "img");
      hit.tabIndex = mayChoose || k === 0 ? 0 : -1;
      hit.addEventListener("mouseenter", () => this.say(k));
      hit.addEventListener("focus", () => this.say(k));
      hit.addEventListener("keydown", (event) => this.key(event, k));
      if (mayChoose) {
        hit.addEventListener("click", () => this.choose(words));
      }
      group.append(hit);
    });
  }

  key(event, k) {
    const hits = this.figure.querySelectorAll(".hit"), to = { ArrowRight: k + 1, ArrowLeft: k - 1 }[event.key];
    if (to !== undefined && hits[to]) {
      hits[to].focus();
    } else if ((event.key === "Enter" || event.key === " ") && "choose" in this.figure.dataset) {
      event.preventDefault();
      this.choose(this.data.categories[k]);
    }
  }

  words(k) {
    const { along, categories, series, left, right } = this.data;
    const said = series.map((it) => it.name + " " + told(it.values[k]) + " " + (it.axis === "right" ? right : left));
    const mark = categories[k] === this.data.mark ? " (" + this.data.says + ")" : "";
    return along + " " + categories[k] + mark + ": " + said.join("; ");
  }

  say(k) {
    this.figure.querySelector(".chart-says").textContent = this.words(k);
  }

  choose(words) {
    const isMany = document.querySelector("#use-pushbacks:checked") !== null;
    if (!isMany) {
      this.chosen.clear();
    }
    if (!this.chosen.delete(words)) {
      this.chosen.add(words);
    }
    this.mark();
  }

  mark() {
    for (const hit of this.figure.querySelectorAll(".hit")) {
      const isChosen = this.chosen.has(hit.dataset.category);
      hit.classList.toggle("chosen", isChosen);
      if (hit.getAttribute("role") === "button") {
        hit.setAttribute("aria-pressed", isChosen);
      }
    }
    const form = document.getElementById("choice");
    if (form && "choose" in this.figure.dataset) {
      form.elements.factors.value = Array.from(this.chosen).join(",");
      document.getElementById("chosen").textContent = this.chosen.size ? Array.from(this.chosen).sort().join(", ") : "none";
      document.getElementById("save-choice").disabled = this.chosen.size === 0;
    }
  }
}

const charts = Array.from(document.querySelectorAll("figure[data-chart]"), (it) => new Chart(it));
for (const way of document.querySelectorAll("input[name=use]")) {
  way.addEventListener("change", () => {
    charts[0].chosen.clear();
    charts[0].mark();
  });
}
