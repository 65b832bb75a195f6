"use strict";

// ---- on the plan of a project: its areas, a new one that is drawn by clicks, and a rosette of slope angles for each domain

const field = el("area-corners");
const RADIUS = 48;
let isDrawing = false;

// Along the axes of the grid, and the planner's x and y of a place along them.
function turn(azimuth) {
  return [Math.cos(azimuth * Math.PI / 180), -Math.sin(azimuth * Math.PI / 180)];
}

function back(east, north) {
  const [x, y, azimuth] = app.model.info.frame, [c, s] = turn(azimuth);
  return azimuth ? [x + east * c - north * s, y + east * s + north * c] : [east, north];
}

function along(x, y) {
  const [x0, y0, azimuth] = app.model.info.frame, [c, s] = turn(azimuth);
  return azimuth ? [(x - x0) * c + (y - y0) * s, (y - y0) * c - (x - x0) * s] : [x, y];
}

function corners() {
  const lines = field.value.split("\n").map((line) => line.split(/[\s,;]+/).filter((it) => it !== "").map(Number));
  return lines.filter((it) => it.length === 2 && it.every(Number.isFinite));
}

function onPicture(view, [east, north]) {
  const [span, down] = view.span();
  return [view.left + (east - span[0]) * view.scale, view.top + (down[0] - north) * view.scale];
}

function drawRing(pen, view, ring, shade, isClosed) {
  pen.beginPath();
  ring.forEach((place, k) => pen[k ? "lineTo" : "moveTo"](...onPicture(view, place)));
  if (isClosed) {
    pen.closePath();
  }
  for (const [width, colour] of [[4, "#ffffff"], [2, shade]]) {
    pen.lineWidth = width;
    pen.strokeStyle = colour;
    pen.stroke();
  }
}

function drawAreas(pen, view) {
  for (const area of app.model.info.areas) {
    area.rings.forEach((ring) => drawRing(pen, view, ring, "#b8006b", true));
    if (area.rings.length) {
      const words = area.exclude === "inside" ? area.name + ": no mining" : "no mining outside " + area.name;
      label(pen, words, onPicture(view, area.rings[0][0]));
    }
  }
  const ring = corners().map((place) => along(...place));
  if (ring.length) {
    drawRing(pen, view, ring, "#0b5cad", ring.length > 2);
    for (const place of ring) {
      const [x, y] = onPicture(view, place);
      pen.fillStyle = "#0b5cad";
      pen.fillRect(x - 4, y - 4, 8, 8);
    }
  }
}

function label(pen, words, [x, y]) {
  pen.font = "bold 12px system-ui, sans-serif";
  pen.textAlign = "center";
  pen.lineWidth = 4;
  pen.strokeStyle = "#ffffff";
  pen.strokeText(words, x, y);
  pen.fillStyle = "#14181f";
  pen.fillText(words, x, y);
}

// The angle at a bearing: between those that are given the cotangent is linear.
function angleAt(angles, bearing) {
  if (angles.length === 1) {
    return angles[0][1];
  }
  const cot = (degrees) => 1 / Math.tan(degrees * Math.PI / 180), sorted = [...angles].sort((one, other) => one[0] - other[0]);
  const k = sorted.findIndex(([azimuth]) => azimuth > bearing), next = sorted[k < 0 ? 0 : k], last = sorted[(k <= 0 ? sorted.length : k) - 1];
  const span = (next[0] - last[0] + 360) % 360 || 360, part = ((bearing - last[0] + 360) % 360) / span;
  return Math.atan(1 / (cot(last[1]) + part * (cot(next[1]) - cot(last[1])))) * 180 / Math.PI;
}

// For each domain its block on the bench that is nearest to the middle of its blocks there.
function middles(column) {
  const { rows, columns, rowOf } = app.model, { level } = app.state, places = new Map();
  for (let row = 0; row < rows; row++) {
    for (let at = 0; at < columns; at++) {
      const block = rowOf[app.model.cell(level, row, at)];
      if (block >= 0) {
        const code = column ? column.labels[column.values[block] - 1] : "";
        places.set(code, places.get(code) || []);
        places.get(code).push([at, row]);
      }
    }
  }
  return Array.from(places, ([code, blocks]) => {
    const mean = [0, 1].map((k) => blocks.reduce((sum, it) => sum + it[k], 0) / blocks.length);
    const far = (it) => Math.hypot(it[0] - mean[0], it[1] - mean[1]);
    return [code, blocks.reduce((best, it) => (far(it) < far(best) ? it : best))];
  });
}

function drawRosettes(pen, view) {
  const { info } = app.model, named = info.domains.flatMap((it) => it.codes);
  if (!el("rosettes").checked) {
    return;
  }
  for (const [code, [x, y]] of middles(domains)) {
    const entry = info.domains.find((it) => it.codes.includes(code)) || info.domains.find((it) => it.codes.length === 0 && !named.includes(code));
    if (entry && entry.angles.length) {
      const east = info.corner[0] + (x + 0.5) * info.size[0], north = info.corner[1] + (y + 0.5) * info.size[1];
      rosette(pen, onPicture(view, [east, north]), entry.angles, code);
    }
  }
}

function rosette(pen, [x, y], angles, name) {
  const azimuth = app.model.info.frame[2];
  const tip = (bearing, angle) => {
    const turned = (bearing - azimuth) * Math.PI / 180, far = RADIUS * angle / 60;
    return [x + far * Math.sin(turned), y - far * Math.cos(turned)];
  };
  pen.beginPath();
  for (let bearing = 0; bearing <= 360; bearing += 5) {
    pen[bearing ? "lineTo" : "moveTo"](...tip(bearing, angleAt(angles, bearing % 360)));
  }
  pen.fillStyle = "rgba(255, 255, 255, 0.75)";
  pen.fill();
  pen.lineWidth = 1.5;
  pen.strokeStyle = "#14181f";
  pen.stroke();
  for (const [bearing, angle] of angles.length > 1 ? angles : []) {
    pen.beginPath();
    pen.moveTo(x, y);
    pen.lineTo(...tip(bearing, angle));
    pen.stroke();
  }
  for (const [bearing, angle] of angles) {
    const end = tip(bearing, angle);
    label(pen, Math.round(10 * angle) / 10 + "°", angles.length > 1 ? [end[0], end[1] + 4] : [x, y + 18]);
  }
  label(pen, name, [x, y + 4]);
}

function say(words) {
  el("drawing").textContent = words;
}

function draws(is) {
  isDrawing = is;
  el("draw").setAttribute("aria-pressed", is);
  el("draw").textContent = is ? "End drawing" : "Draw on the plan";
  say(is ? "Click the corners on the plan, in their order." : "");
  app.onPlan = is ? add : null;
  if (is) {
    el("plan").scrollIntoView({ block: "center" });
  }
}

function add(found) {
  const [x, y] = back(found.along, found.down);
  field.value = (field.value.trim() + "\n" + x.toFixed(1) + " " + y.toFixed(1)).trim();
  say(corners().length + " corners");
  app.redraw();
}

function complain(words) {
  el("area-problem").textContent = words;
  el("area-problem").hidden = words === "";
}

async function sendArea() {
  const given = { project: box.dataset.name, name: el("area-name").value, side: el("area-side").value };
  const file = el("area-file").files[0];
  const answer = await (file
    ? fetch("/project/area-file?" + new URLSearchParams({ ...given, file: file.name }), { method: "PUT", body: file })
    : fetch("/project/area", { method: "POST", body: new URLSearchParams({ ...given, corners: field.value }) }));
  if (!answer.ok) {
    throw new Error(await answer.text());
  }
  location.assign((await answer.json()).next);
}

let domains = null;

document.addEventListener("blocks", async () => {
  el("areas").hidden = false;
  const { info } = app.model;
  domains = info.domain && info.columns.some((it) => it.name === info.domain) ? await app.model.column(info.domain) : null;
  app.views[0].marks.push(drawRosettes, drawAreas);
  el("rosettes").addEventListener("change", () => app.redraw());
  el("draw").addEventListener("click", () => draws(!isDrawing));
  el("undo").addEventListener("click", () => {
    field.value = field.value.trim().split("\n").slice(0, -1).join("\n");
    app.redraw();
  });
  field.addEventListener("input", () => app.redraw());
  el("area").addEventListener("submit", (event) => {
    event.preventDefault();
    complain("");
    sendArea().catch((error) => complain(error.message || "The server does not answer. Check that pitplan serve runs, and save the area again."));
  });
  app.redraw();
});
