"use strict";
// The page of a log: a time line on a canvas, the lines in a table, and what a chosen line says.
const data = JSON.parse(document.getElementById("data").textContent);
const LEFT = 130, ROW = 40, LOAD = 46, TOP = 28, LINE = 18;
const COLOURS = { done: "#2f7d41", fail: "#c0271b", open: "#8a8f98" };
const BANDS = { passive: "#fff0b8", off: "#e3c9c9", asleep: "#d5e3f3" };
const element = (id) => document.getElementById(id);

// The lines: `at` is the moment as a number, which is exact up to 2^53 ticks; the texts keep all digits.
const lines = data.lines.map((text, index) => {
  const words = text.split(" ");
  if (words[0] === "end") return { index, text, at: data.last, bus: null, word: "end", node: null, rest: words.slice(1) };
  return { index, text, at: Number(words[0]), bus: words[1] === "-" ? null : Number(words[1]), word: words[2],
    node: Number(words[3]), rest: words.slice(4) };
});

// Attempts by bus, and the states of nodes as bands.
const attempts = [];
const attemptOf = new Map(); // by the index of a line
const rows = [];
const bands = new Map(); // by "bus node": lists of {state, from, to}

function collect() {
  const running = new Map(), open = new Map();
  const close = (key, state, at) => {
    const from = open.get(key + " " + state);
    if (from === undefined) return;
    open.delete(key + " " + state);
    if (!bands.has(key)) bands.set(key, []);
    bands.get(key).push({ state, from, to: at });
  };
  const enter = (key, state, at) => { if (!open.has(key + " " + state)) open.set(key + " " + state, at); };
  for (const line of lines) {
    const key = line.bus + " " + line.node;
    if (line.word === "start") {
      const attempt = { bus: line.bus, node: line.node, from: line.at, to: data.last, how: "open", start: line, end: null, losers: [], frame: line.rest[0] };
      running.set(line.bus, attempt);
      attempts.push(attempt);
      attemptOf.set(line.index, attempt);
    } else if (line.word === "lost" && running.has(line.bus)) {
      running.get(line.bus).losers.push(line);
      attemptOf.set(line.index, running.get(line.bus));
    } else if ((line.word === "done" || line.word === "fail") && running.has(line.bus)) {
      const attempt = running.get(line.bus);
      running.delete(line.bus);
      Object.assign(attempt, { to: line.at, how: line.word, end: line });
      attemptOf.set(line.index, attempt);
    } else if (line.word === "state") {
      close(key, "passive", line.at);
      if (line.rest[0] in BANDS) enter(key, line.rest[0], line.at);
    } else if (line.word === "sleep") enter(key, "asleep", line.at);
    else if (line.word === "wake" || (line.word === "told" && line.rest[0] === "wake")) close(key, "asleep", line.at);
    else if (line.word === "back") close(key, "off", line.at);
  }
  for (const key of open.keys()) {
    const cut = key.lastIndexOf(" ");
    const from = open.get(key);
    if (!bands.has(key.slice(0, cut))) bands.set(key.slice(0, cut), []);
    bands.get(key.slice(0, cut)).push({ state: key.slice(cut + 1), from, to: data.last });
  }
}

function layOut() {
  let y = TOP;
  data.buses.forEach((bus, number) => {
    const mine = attempts.filter((attempt) => attempt.bus === number);
    const sums = [0];
    for (const attempt of mine) sums.push(sums[sums.length - 1] + attempt.to - attempt.from);
    rows.push({ kind: "bus", bus: number, name: bus.name, y, height: LOAD, attempts: mine, sums });
    y += LOAD;
    const sent = new Map(), heard = new Map();
    for (const attempt of mine) {
      if (!sent.has(attempt.node)) sent.set(attempt.node, []);
      sent.get(attempt.node).push(attempt);
      if (attempt.how !== "done" || attempt.end.rest[2] === "-") continue;
      for (const node of attempt.end.rest[2].split(",").map(Number)) {
        if (!heard.has(node)) heard.set(node, []);
        heard.get(node).push(attempt);
      }
    }
    data.nodes.forEach((node, at) => {
      if (!node.buses.includes(number)) return;
      rows.push({ kind: "node", bus: number, node: at, name: node.name, y, height: ROW, attempts: sent.get(at) || [],
        heard: heard.get(at) || [], marks: lines.filter((line) => line.node === at && (line.bus === number || line.bus === null)
          && !["start", "done", "fail"].includes(line.word)) });
      y += ROW;
    });
  });
  return y;
}

collect();
const bottom = layOut();
const whole = { from: 0, to: Math.max(data.last, 1) };
let view = { ...whole };
let chosen = -1;
let shown = []; // the indices of the lines that pass the filter

function firstAt(list, key, moment) {
  let low = 0, high = list.length;
  while (low < high) {
    const middle = (low + high) >> 1;
    if (list[middle][key] < moment) low = middle + 1; else high = middle;
  }
  return low;
}

const canvas = element("canvas"), pen = canvas.getContext("2d");
let width = 0;
const place = (moment) => LEFT + (width * (moment - view.from)) / (view.to - view.from);
const momentAt = (x) => view.from + ((x - LEFT) / width) * (view.to - view.from);

function filter() {
  return { bus: element("bus").value, node: element("node").value, identifier: element("identifier").value.trim().toLowerCase() };
}

function passes(attempt, wanted) {
  return !wanted.identifier || attempt.frame.split("#")[0] === wanted.identifier;
}

function timeText(ticks) {
  const seconds = ticks / data.resolution;
  const [unit, times] = Math.abs(seconds) >= 1 ? ["s", 1] : Math.abs(seconds) >= 1e-3 ? ["ms", 1e3] : ["µs", 1e6];
  return Number((seconds * times).toPrecision(9)) + " " + unit;
}

function drawTimes() {
  const span = view.to - view.from, most = Math.max(width / 110, 2);
  let step = 1;
  for (let power = 0; span / step > most; power += 1) step = [1, 2, 5][power % 3] * 10 ** Math.floor(power / 3);
  pen.font = "10px sans-serif";
  pen.textAlign = "center";
  for (let at = Math.ceil(view.from / step) * step; at <= view.to; at += step) {
    pen.fillStyle = "#555c68";
    pen.fillText(timeText(at), place(at), 16);
    pen.fillStyle = "#e6e8ec";
    pen.fillRect(place(at), 22, 1, bottom);
  }
  pen.textAlign = "left";
}

function drawBars(list, y, height, colour, wanted) {
  let last = -1, lastColour = "";
  for (let at = firstAt(list, "to", view.from); at < list.length && list[at].from <= view.to; at += 1) {
    const attempt = list[at];
    if (!passes(attempt, wanted)) continue;
    const x = Math.max(place(attempt.from), LEFT), end = Math.min(place(attempt.to), LEFT + width);
    const fill = colour || COLOURS[attempt.how];
    if (end - x < 1 && Math.round(x) === last && fill === lastColour) continue;
    last = Math.round(x);
    lastColour = fill;
    pen.fillStyle = fill;
    pen.fillRect(x, y, Math.max(end - x, 1), height);
    if (colour) continue;
    if (attempt.how === "fail") {
      pen.beginPath();
      pen.moveTo((x + end) / 2, y);
      pen.lineTo((x + end) / 2 - 4, y - 6);
      pen.lineTo((x + end) / 2 + 4, y - 6);
      pen.fill();
    }
    const label = [attempt.frame, attempt.frame.split("#")[0]].find((text) => text.length * 6.2 + 6 < end - x);
    if (label) { pen.fillStyle = "#fff"; pen.fillText(label, x + 4, y + 12); }
    if (chosen >= 0 && attemptOf.get(chosen) === attempt) { pen.strokeStyle = "#000"; pen.strokeRect(x, y, Math.max(end - x, 1), height); }
  }
}

function drawLoad(row) {
  const columns = Math.max(Math.floor(width / 8), 1), step = (view.to - view.from) / columns;
  let most = 0;
  const shares = [];
  for (let column = 0; column < columns; column += 1) {
    const low = view.from + column * step, high = low + step;
    const first = firstAt(row.attempts, "to", low), behind = firstAt(row.attempts, "from", high);
    let busy = row.sums[behind] - row.sums[first];
    if (behind > first) busy -= Math.max(0, low - row.attempts[first].from) + Math.max(0, row.attempts[behind - 1].to - high);
    shares.push(busy / step);
    most = Math.max(most, busy / step);
  }
  const top = [0.1, 0.25, 0.5, 1].find((share) => share >= most) || 1;
  pen.fillStyle = "#a9c3a4";
  shares.forEach((share, column) => {
    const height = (Math.min(share / top, 1) * (LOAD - 22));
    pen.fillRect(LEFT + (width * column) / columns, row.y + LOAD - 6 - height, width / columns + 0.5, height);
  });
  pen.fillStyle = "#1d2430";
  pen.font = "bold 12px sans-serif";
  pen.fillText(row.name, 8, row.y + 20);
  pen.font = "10px sans-serif";
  pen.fillStyle = "#555c68";
  pen.fillText("load, to " + 100 * top + " %", 8, row.y + 34);
}

function drawNode(row, wanted) {
  for (const band of bands.get(row.bus + " " + row.node) || []) {
    if (band.to < view.from || band.from > view.to) continue;
    pen.fillStyle = BANDS[band.state];
    const x = Math.max(place(band.from), LEFT);
    pen.fillRect(x, row.y, Math.min(place(band.to), LEFT + width) - x, ROW - 2);
  }
  pen.fillStyle = "#1d2430";
  pen.font = "12px sans-serif";
  pen.fillText(row.name, 18, row.y + 22);
  pen.font = "10px sans-serif";
  drawBars(row.attempts, row.y + 8, 18, "", wanted);
  drawBars(row.heard, row.y + 28, 4, "#5f86a3", wanted);
  let last = -1;
  pen.fillStyle = "#b0562a";
  for (let at = firstAt(row.marks, "at", view.from); at < row.marks.length && row.marks[at].at <= view.to; at += 1) {
    const x = Math.round(place(row.marks[at].at));
    if (x !== last) pen.fillRect(x, row.y + 34, 2, 4);
    last = x;
  }
}

function draw() {
  const ratio = window.devicePixelRatio || 1, left = element("left");
  width = Math.max(left.clientWidth - LEFT - 16, 100);
  canvas.width = left.clientWidth * ratio;
  canvas.height = (bottom + 10) * ratio;
  canvas.style.width = left.clientWidth + "px";
  canvas.style.height = bottom + 10 + "px";
  pen.setTransform(ratio, 0, 0, ratio, 0, 0);
  pen.clearRect(0, 0, left.clientWidth, bottom + 10);
  drawTimes();
  const wanted = filter();
  for (const row of rows) {
    if (wanted.bus && Number(wanted.bus) !== row.bus) pen.globalAlpha = 0.15;
    if (row.kind === "node" && wanted.node && Number(wanted.node) !== row.node) pen.globalAlpha = 0.15;
    if (row.kind === "bus") drawLoad(row); else drawNode(row, wanted);
    pen.globalAlpha = 1;
  }
  element("span").textContent = timeText(view.from) + " to " + timeText(view.to);
}

// The table shows the lines that pass, and only those that are seen are there.
function fillTable() {
  const table = element("table"), first = Math.max(Math.floor(table.scrollTop / LINE) - 5, 0);
  const count = Math.ceil((table.clientHeight || 600) / LINE) + 10;
  for (const old of [...table.querySelectorAll(".line")]) old.remove();
  for (let at = first; at < Math.min(first + count, shown.length); at += 1) {
    const line = lines[shown[at]], part = document.createElement("div");
    part.className = "line " + line.word + (line.index === chosen ? " chosen" : "");
    part.style.top = at * LINE + "px";
    part.textContent = line.text;
    part.dataset.index = line.index;
    table.append(part);
  }
}

function applyFilter() {
  const wanted = filter();
  shown = [];
  for (const line of lines) {
    if (wanted.bus && line.bus !== Number(wanted.bus)) continue;
    if (wanted.node && line.node !== Number(wanted.node)) continue;
    if (wanted.identifier && !(line.rest[0] || "").startsWith(wanted.identifier + "#")) continue;
    shown.push(line.index);
  }
  element("tall").style.height = shown.length * LINE + "px";
  draw();
  follow(view.from);
}

// Moves the table to the first line from this moment on.
function follow(moment) {
  let low = 0, high = shown.length;
  while (low < high) {
    const middle = (low + high) >> 1;
    if (lines[shown[middle]].at < moment) low = middle + 1; else high = middle;
  }
  element("table").scrollTop = low * LINE;
  fillTable();
}

function show(from, to, moves = true) {
  const least = Math.max(data.bit * 4, 4), span = Math.min(Math.max(to - from, least), whole.to - whole.from || 1);
  const start = Math.min(Math.max(from, whole.from), whole.to - span);
  view = { from: start, to: start + span };
  draw();
  if (moves) follow(view.from);
}

function zoom(times, at = (view.from + view.to) / 2) {
  show(at - (at - view.from) * times, at + (view.to - at) * times);
}

function cells(values) {
  const row = document.createElement("tr");
  for (const value of values) {
    const cell = document.createElement("td");
    if (value instanceof Node) cell.append(value); else cell.textContent = value;
    row.append(cell);
  }
  return row;
}

// A field's bits; those behind which a dot stands are stuff bits.
function bitsOf(bits) {
  const told = document.createElement("span");
  for (let at = 0; at < bits.length; at += 1) {
    if (bits[at] === ".") continue;
    const part = document.createElement(bits[at + 1] === "." ? "i" : "span");
    part.textContent = bits[at];
    told.append(part);
  }
  return told;
}

function paragraph(text) {
  const part = document.createElement("div");
  part.textContent = text;
  return part;
}

function describe(attempt) {
  const parts = [paragraph(`${attempt.frame} by ${data.nodes[attempt.node].name} on ${data.buses[attempt.bus].name}: from ${attempt.start.text.split(" ")[0]}`
    + ` (${timeText(attempt.from)}) ` + (attempt.end ? `to ${attempt.end.text.split(" ")[0]} (${timeText(attempt.to)}), ${timeText(attempt.to - attempt.from)}` : "on, still running"))];
  if (attempt.how === "fail") parts.push(paragraph(`failed: ${data.kinds[attempt.end.rest[1]]}, detected by ${data.nodes[Number(attempt.end.rest[2])].name}`));
  if (attempt.how === "done") {
    const receivers = attempt.end.rest[2] === "-" ? "nobody" : attempt.end.rest[2].split(",").map((node) => data.nodes[Number(node)].name).join(", ");
    parts.push(paragraph("received by " + receivers));
  }
  parts.push(paragraph(attempt.losers.length ? "lost against it: " + attempt.losers.map((line) =>
    `${data.nodes[line.node].name} with ${line.rest[0]} (${line.rest[1]})`).join(", ") : "nobody lost against it"));
  if (attempt.end) {
    const counters = data.counters[attempt.end.index + 1] || [];
    parts.push(paragraph(counters.length ? "counters behind it: " + counters.map(([node, tec, rec]) =>
      `${data.nodes[node].name} TEC ${tec} REC ${rec}`).join(", ") : "counters behind it: all 0"));
  }
  const wire = data.wires[attempt.frame];
  if (wire) {
    const table = document.createElement("table");
    table.append(cells(wire[0].map(([name]) => name)), cells(wire[0].map(([, bits]) => bitsOf(bits))));
    parts.push(table, paragraph((wire[1] ? `then ${wire[1]} bits of stuff count and CRC, ` : "then ")
      + "CRC delimiter, ACK, ACK delimiter and end of frame: 10 bits; red bits are stuff bits"));
  }
  return parts;
}

function choose(index, centres = true) {
  chosen = index;
  const line = lines[index], attempt = attemptOf.get(index), detail = element("detail");
  detail.replaceChildren(paragraph(`line ${index + 1}: ${line.text}`), ...(attempt ? describe(attempt) : []));
  if (centres && (line.at < view.from || line.at > view.to)) {
    const half = (view.to - view.from) / 2;
    show(line.at - half, line.at + half, false);
  }
  const at = shown.indexOf(index), table = element("table");
  if (at >= 0 && (at * LINE < table.scrollTop || (at + 1) * LINE > table.scrollTop + table.clientHeight))
    table.scrollTop = Math.max(at * LINE - table.clientHeight / 2, 0);
  draw();
  fillTable();
}

// The next line from the chosen one on, or from the left edge, in a direction, for which `is` holds.
function jump(is, step) {
  let at = chosen >= 0 ? chosen + step : firstAt(lines, "at", view.from);
  while (at >= 0 && at < lines.length && !is(lines[at])) at += step;
  if (at >= 0 && at < lines.length) choose(at);
}

const jumps = {
  e: (line) => line.word === "fail" || line.word === "hurt",
  s: (line) => line.word === "state",
  d: (line) => line.word === "down" || line.word === "over",
};

function nextShown(step) {
  const at = shown.indexOf(chosen), to = at < 0 ? 0 : at + step;
  if (to >= 0 && to < shown.length) choose(shown[to]);
}

function key(event) {
  if (event.target.tagName === "INPUT" || event.target.tagName === "SELECT" || event.ctrlKey || event.metaKey) return;
  const span = view.to - view.from, name = event.key;
  if (name === "ArrowLeft") show(view.from - span / 4, view.to - span / 4);
  else if (name === "ArrowRight") show(view.from + span / 4, view.to + span / 4);
  else if (name === "+" || name === "=") zoom(0.5);
  else if (name === "-") zoom(2);
  else if (name === "0") show(whole.from, whole.to);
  else if (name === "n") nextShown(1);
  else if (name === "p") nextShown(-1);
  else if (name.toLowerCase() in jumps && name.length === 1) jump(jumps[name.toLowerCase()], name === name.toLowerCase() ? 1 : -1);
  else return;
  event.preventDefault();
}

// The line of the frame or the mark at a point of the canvas.
function lineAt(x, y) {
  const row = rows.find((one) => y >= one.y && y < one.y + one.height);
  if (!row || row.kind === "bus") return null;
  const low = momentAt(x - 3), high = momentAt(x + 3);
  if (y - row.y >= 34) {
    const mark = row.marks[firstAt(row.marks, "at", low)];
    if (mark && mark.at <= high) return mark;
  }
  for (const list of y - row.y >= 28 ? [row.heard, row.attempts] : [row.attempts, row.heard]) {
    const attempt = list[firstAt(list, "to", low)];
    if (attempt && attempt.from <= high) return attempt.end || attempt.start;
  }
  return null;
}

function mouse() {
  let dragged = null;
  canvas.addEventListener("mousedown", (event) => { dragged = { x: event.offsetX, ...view, moved: false }; });
  window.addEventListener("mousemove", (event) => {
    if (!dragged) return;
    const ticks = ((event.clientX - canvas.getBoundingClientRect().left - dragged.x) / width) * (dragged.to - dragged.from);
    if (Math.abs(event.clientX - canvas.getBoundingClientRect().left - dragged.x) > 3) dragged.moved = true;
    if (dragged.moved) show(dragged.from - ticks, dragged.to - ticks);
  });
  window.addEventListener("mouseup", () => { window.setTimeout(() => { dragged = null; }, 0); });
  canvas.addEventListener("click", (event) => {
    if (dragged && dragged.moved) return;
    const line = lineAt(event.offsetX, event.offsetY);
    if (line) choose(line.index, false);
  });
  canvas.addEventListener("wheel", (event) => {
    event.preventDefault();
    zoom(event.deltaY > 0 ? 1.25 : 0.8, momentAt(event.offsetX));
  }, { passive: false });
  element("table").addEventListener("scroll", fillTable);
  element("table").addEventListener("click", (event) => {
    const line = event.target.closest(".line");
    if (line) choose(Number(line.dataset.index));
  });
}

function controls() {
  const option = (list, value, text) => { const part = document.createElement("option"); part.value = value; part.textContent = text; list.append(part); };
  data.buses.forEach((bus, at) => option(element("bus"), at, bus.name));
  data.nodes.forEach((node, at) => option(element("node"), at, node.name));
  for (const id of ["bus", "node"]) element(id).addEventListener("change", applyFilter);
  element("identifier").addEventListener("input", applyFilter);
  element("whole").addEventListener("click", () => show(whole.from, whole.to));
  element("closer").addEventListener("click", () => zoom(0.5));
  element("farther").addEventListener("click", () => zoom(2));
  element("error").addEventListener("click", () => jump(jumps.e, 1));
  element("state").addEventListener("click", () => jump(jumps.s, 1));
  element("down").addEventListener("click", () => jump(jumps.d, 1));
  window.addEventListener("keydown", key);
  window.addEventListener("resize", () => { draw(); fillTable(); });
}

const begun = performance.now();
mouse();
controls();
applyFilter();
document.documentElement.dataset.drawn = Math.round(performance.now() - begun);
