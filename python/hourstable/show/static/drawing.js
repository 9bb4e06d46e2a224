// Drawing: readings from left to right, lanes from top to bottom.

const LEFT = 96; // pixels, of the names of lanes and rows
const COLUMN = 2; // pixels, of many calls
const NARROW = 3; // pixels: bars that are narrower and touch are drawn as one
const FEW = 400; // calls in view up to which each has its mark, and messages have arrows
const MOST_PRINTED = 8000; // pixels, which a canvas surely has
const FONT = "system-ui, -apple-system, 'Segoe UI', Roboto, 'DejaVu Sans', sans-serif";
const STACK = [DONE, SERVED, UNJUDGED, REFUSED, DENIED, WARNED, FAULT]; // from the foot of a column up
const RARE = new Set([REFUSED, DENIED, WARNED, FAULT]); // which are not to be lost among the others
const EDGES = { guard: "guard-edge", bridge: "bridge-edge", life: "life-edge" };
const COLOURS = ["back", "text", "soft", "line", "panel", "served", "denied", "refused", "done", "warned", "may", "guard",
  "guard-edge", "bridge", "bridge-edge", "life", "life-edge", "skew", "steady", "waiting", "term", "edge", "chosen",
  "match", "band"];

const at = (id) => document.getElementById(id);
const canvas = at("lanes");
const box = at("box"); // scrolls the lanes
const pen = canvas.getContext("2d");
let view = { from: 0, to: 1 }; // readings, counted from the lowest
let chosen = -1; // a call, or -1
let chosenGrant = 0; // whose lease is outlined
let matches = []; // calls
let colours = {};
let wide = 1, high = 1; // pixels of the picture
let scale = 1; // pixels of a tick
let isPrinted = false;
let isWaiting = false;

const x = (reading) => LEFT + (Math.min(reading, view.to + (view.to - view.from)) - view.from) * scale;
const reading = (pixel) => view.from + (pixel - LEFT) / scale;

function redraw() {
  if (isWaiting || !data) return;
  isWaiting = true;
  requestAnimationFrame(() => { isWaiting = false; draw(); });
}

function readColours() {
  const style = getComputedStyle(document.documentElement);
  for (const name of COLOURS) colours[name] = style.getPropertyValue(`--${name}`).trim();
  colours.fault = colours.denied;
  colours.unjudged = colours.edge;
}

function measure() {
  at("tall").style.height = isPrinted ? "auto" : `${tall}px`;
  wide = box.clientWidth || 1;
  high = isPrinted ? Math.min(tall, MOST_PRINTED) : Math.min(tall, box.clientHeight);
  scale = Math.max(wide - LEFT - 8, 1) / (view.to - view.from);
}

function resize() {
  const ratio = window.devicePixelRatio || 1, across = Math.round(wide * ratio), down = Math.round(high * ratio);
  canvas.style.height = `${high}px`;
  if (canvas.width !== across || canvas.height !== down) [canvas.width, canvas.height] = [across, down];
  pen.setTransform(ratio, 0, 0, ratio, 0, 0);
}

const scrolled = () => (isPrinted ? 0 : box.scrollTop);

function draw() {
  measure();
  resize();
  pen.fillStyle = colours.back;
  pen.fillRect(0, 0, wide, high);
  pen.font = `12px ${FONT}`;
  pen.textBaseline = "middle";
  const calls = callsInView();
  pen.save();
  pen.beginPath();
  pen.rect(0, TOP, wide, high);
  pen.clip();
  pen.translate(0, -scrolled());
  drawLanes(calls);
  pen.restore();
  drawHead();
  Object.assign(canvas.dataset, { calls: String(calls), from: String(view.from), to: String(view.to) });
}

function callsInView() {
  let many = 0;
  for (const lane of lanes) {
    for (const { ats } of lane.rows) if (ats.length) many += first(ats, view.to) - first(ats, view.from);
  }
  return many;
}

const isSeen = (lane) => lane.foot > scrolled() + TOP && lane.y < scrolled() + high;

function drawLanes(calls) {
  const seen = lanes.filter(isSeen);
  drawBands();
  drawGrid();
  for (const lane of seen) {
    for (const it of lane.stretches) drawStretch(lane, it);
    for (const row of lane.rows) drawRow(row);
  }
  if (calls <= FEW) drawArrows(data.arrows);
  else if (chosen >= 0) drawArrows(data.arrows.filter((it) => it[0] === chosen || it[1] === chosen));
  drawMatches();
  if (chosen >= 0) ring(chosen, colours.chosen, 9);
  drawNames(seen);
}

// The background ------------------------------------------------------------------------------------

// Bands from one commit to the next: those of even generations are darker.
function drawBands() {
  pen.fillStyle = colours.band;
  for (const [begin, end, generation] of data.bands) {
    const left = Math.max(x(begin), LEFT), right = Math.min(x(end === null ? Infinity : end), wide);
    if (generation % 2 === 0 && left < right) pen.fillRect(left, 0, right - left, tall);
  }
}

// Returns the readings that have numbers.
function ticks() {
  const widest = pen.measureText(String(BigInt(data.base) + BigInt(Math.max(Math.round(view.to), 0)))).width;
  const wanted = (view.to - view.from) / Math.max((wide - LEFT) / Math.max(110, widest + 24), 1);
  const power = 10 ** Math.floor(Math.log10(Math.max(wanted, 1)));
  const step = Math.max([1, 2, 5, 10].map((it) => it * power).find((it) => it >= wanted), 1);
  const base = BigInt(data.base), offset = Number(base % BigInt(Math.max(Math.round(step), 1)));
  const found = [];
  for (let it = Math.ceil((view.from + offset) / step) * step - offset; it <= view.to; it += step) {
    if (x(it) >= LEFT && base + BigInt(Math.round(it)) >= 0n) found.push(it);
  }
  return found;
}

function drawGrid() {
  pen.strokeStyle = colours.line;
  pen.lineWidth = 1;
  pen.beginPath();
  for (const it of ticks()) {
    pen.moveTo(Math.round(x(it)) + 0.5, 0);
    pen.lineTo(Math.round(x(it)) + 0.5, tall);
  }
  pen.stroke();
  if (data.fault === null) return;
  pen.strokeStyle = colours.fault;
  pen.setLineDash([2, 3]);
  pen.beginPath();
  pen.moveTo(x(data.columns.at[data.fault]), 0);
  pen.lineTo(x(data.columns.at[data.fault]), tall);
  pen.stroke();
  pen.setLineDash([]);
}

// The numbers of the readings, and of the generations.
function drawHead() {
  const base = BigInt(data.base);
  pen.fillStyle = colours.soft;
  pen.textAlign = "center";
  for (const it of ticks()) {
    const words = String(base + BigInt(Math.round(it))), half = pen.measureText(words).width / 2;
    if (x(it) - half > LEFT - 30 && x(it) + half < wide) pen.fillText(words, x(it), 14);
  }
  pen.textAlign = "left";
  pen.fillText("reading", 10, 14);
  pen.fillText("generation", 10, TOP - 9);
  for (const [begin, end, generation] of data.bands) {
    const left = Math.max(x(begin), LEFT), right = Math.min(x(end === null ? Infinity : end), wide);
    if (right - left < pen.measureText(String(generation)).width + 8) continue;
    pen.fillText(String(generation), left + 4, TOP - 9);
    pen.fillRect(left, TOP - 16, 1, 16);
  }
  pen.fillStyle = colours.line;
  pen.fillRect(0, TOP - 1, wide, 1);
}

function drawStretch(lane, stretch) {
  const from = Math.max(x(stretch.from), LEFT), to = Math.min(x(stretch.to), wide);
  if (to < LEFT || from > wide) return;
  pen.globalAlpha = 0.2;
  pen.fillStyle = colours.may;
  pen.fillRect(from, lane.y, Math.max(to - from, 1), lane.foot - lane.y);
  pen.globalAlpha = 1;
}

function drawNames(seen) {
  pen.fillStyle = colours.back;
  pen.fillRect(0, 0, LEFT - 4, tall);
  for (const lane of seen) {
    pen.fillStyle = colours.text;
    pen.font = `600 13px ${FONT}`;
    pen.fillText(lane.name, 10, lane.y + ROW / 2);
    pen.font = `12px ${FONT}`;
    pen.fillStyle = colours.soft;
    for (const row of lane.rows) pen.fillText(row.name, 18, row.y + ROW / 2);
    pen.fillStyle = colours.line;
    pen.fillRect(0, lane.foot, wide, 1);
  }
}

// Things that last -----------------------------------------------------------------------------------

function drawRow(row) {
  row.levels.forEach((level, number) => {
    const from = first(level.reach, view.from), to = first(level.froms, view.to), y = row.y + ROW * number;
    drawOut(level, from, to, y);
    drawBars(level, from, to, y);
    for (let it = from; it < to; it++) if (level.things[it].grant) drawEnd(level.things[it], y);
  });
  if (row.marks.length) drawMarks(row);
}

// What is out and not held, as one line where several are, and what is over for the task alone.
function drawOut(level, from, to, y) {
  let edge = LEFT;
  pen.strokeStyle = colours.soft;
  pen.fillStyle = colours.skew;
  pen.lineWidth = 1.5;
  pen.setLineDash([3, 3]);
  pen.beginPath();
  for (let it = from; it < to; it++) {
    for (const part of level.things[it].parts) {
      const left = Math.max(x(part.from), edge), right = Math.min(x(part.to), wide + 4);
      if (part.look === "skew" && right > LEFT) pen.fillRect(Math.max(x(part.from), LEFT), y + 3, right - left, ROW - 6);
      if (part.look !== "out" || right <= left) continue;
      pen.moveTo(left, y + ROW / 2);
      pen.lineTo(right, y + ROW / 2);
      edge = right;
    }
  }
  pen.stroke();
  pen.setLineDash([]);
}

function drawBars(level, from, to, y) {
  let run = null; // narrow bars that touch
  const end = () => { if (run) drawBar(run.look, run.left, run.right, y); run = null; };
  for (let it = from; it < to; it++) {
    const thing = level.things[it];
    if (!thing.bar) continue;
    const { look } = thing.bar, left = Math.max(x(thing.bar.from), LEFT), right = Math.min(x(thing.bar.to), wide + 4);
    if (right < LEFT) continue;
    const isNarrow = right - left < NARROW;
    if (isNarrow && run && run.look === look && left - run.right <= 1) {
      run.right = Math.max(run.right, right);
      continue;
    }
    end();
    if (isNarrow) run = { look, left, right };
    else {
      drawBar(look, left, right, y);
      drawLabel(thing.label, left, right, y);
    }
  }
  end();
}

function drawBar(look, left, right, y) {
  const width = Math.max(right - left, 1);
  pen.fillStyle = colours[look] || colours.term;
  if (look === "handle") {
    pen.fillStyle = colours["life-edge"];
    pen.fillRect(left, y + ROW - 4, width, 2);
    return;
  }
  pen.fillRect(left, y + 3, width, ROW - 6);
  if (width < NARROW) return;
  pen.strokeStyle = colours[EDGES[look] || "edge"];
  pen.lineWidth = 1;
  pen.strokeRect(left + 0.5, y + 3.5, width - 1, ROW - 7);
}

function drawLabel(label, left, right, y) {
  if (right - left < 20) return;
  const words = [label, label.split(",")[0]].find((it) => pen.measureText(it).width + 8 < right - left);
  if (!words) return;
  pen.fillStyle = colours.text;
  pen.fillText(words, left + 4, y + ROW / 2 + 1);
}

// Where a lease was released, and its outline if it is chosen.
function drawEnd(thing, y) {
  for (const part of thing.parts) if (part.look === "released") drawReleased(x(part.to), y);
  if (thing.grant !== chosenGrant) return;
  pen.strokeStyle = colours.chosen;
  pen.lineWidth = 2.5;
  const from = Math.max(x(thing.from), LEFT);
  pen.strokeRect(from, y + 1, Math.max(Math.min(x(thing.to), wide) - from, 2), ROW - 2);
}

function drawReleased(left, y) {
  if (left < LEFT || left > wide) return;
  pen.fillStyle = colours.text;
  pen.beginPath();
  pen.moveTo(left, y + 4);
  pen.lineTo(left - 6, y + ROW / 2);
  pen.lineTo(left, y + ROW - 4);
  pen.fill();
}

// Calls ----------------------------------------------------------------------------------------------

function drawMarks(row) {
  const from = first(row.ats, reading(LEFT - 6)), to = first(row.ats, reading(wide + 6));
  if (to - from > FEW) {
    drawColumns(row, from, to);
    return;
  }
  for (const isRare of [false, true]) {
    for (let it = from; it < to; it++) if (RARE.has(row.kinds[it]) === isRare) drawMark(row.marks[it]);
  }
}

// Where there are many calls, each column of pixels shows how many there are of each kind: the taller, the more.
function drawColumns(row, from, to) {
  const bars = KINDS.map(() => []);
  const counts = new Uint32Array(KINDS.length);
  let place = from;
  while (place < to) {
    const column = Math.floor((row.ats[place] - view.from) * scale / COLUMN);
    const next = first(row.ats, view.from + (column + 1) * COLUMN / scale, place + 1);
    counts.fill(0);
    for (let it = place; it < next; it++) counts[row.kinds[it]]++;
    let y = row.y + ROW - 2;
    const full = Math.min(4 + 3 * Math.log2(next - place + 1), ROW - 4);
    for (const kind of STACK) {
      if (counts[kind] === 0) continue;
      const part = Math.max((full * counts[kind]) / (next - place), RARE.has(kind) ? 4 : 2);
      bars[kind].push(LEFT + column * COLUMN, y - part, part);
      y -= part;
    }
    place = next;
  }
  for (const kind of STACK) {
    pen.fillStyle = colours[KINDS[kind]];
    for (let it = 0; it < bars[kind].length; it += 3) {
      pen.fillRect(bars[kind][it], bars[kind][it + 1], COLUMN, bars[kind][it + 2]);
    }
  }
}

function drawMark(call) {
  drawSign(pen, data.columns.kind[call], x(data.columns.at[call]), middleOf(call));
}

// Kinds differ by their shapes, not by their colours alone.
function drawSign(ink, kind, left, middle) {
  ink.fillStyle = ink.strokeStyle = colours[KINDS[kind]];
  ink.lineWidth = 2;
  ink.beginPath();
  if (kind === DENIED || kind === FAULT) {
    const size = kind === FAULT ? 6 : 4;
    for (const rise of [size, -size]) {
      ink.moveTo(left - size, middle - rise);
      ink.lineTo(left + size, middle + rise);
    }
    ink.stroke();
  } else if (kind === REFUSED || kind === WARNED) {
    ink.moveTo(left, middle - 5);
    for (const [right, down] of [[5, 0], [0, 5], [-5, 0], [0, -5]]) ink.lineTo(left + right, middle + down);
    if (kind === WARNED) ink.fill(); else ink.stroke();
  } else {
    ink.arc(left, middle, kind === SERVED ? 4.5 : 3, 0, 7);
    if (kind === UNJUDGED) ink.stroke(); else ink.fill();
  }
}

function drawArrows(arrows) {
  const ats = data.columns.at;
  pen.strokeStyle = pen.fillStyle = colours.soft;
  pen.lineWidth = 1;
  for (const [sender, receiver] of arrows) {
    const from = x(ats[sender]), to = x(ats[receiver]), isChosen = sender === chosen || receiver === chosen;
    if (Math.max(from, to) < LEFT || Math.min(from, to) > wide) continue;
    pen.strokeStyle = pen.fillStyle = isChosen ? colours.chosen : colours.soft;
    pen.globalAlpha = isChosen ? 1 : 0.45;
    drawArrow(from, middleOf(sender), to, middleOf(receiver));
  }
  pen.globalAlpha = 1;
}

function drawArrow(from, top, to, foot) {
  const angle = Math.atan2(foot - top, to - from);
  pen.beginPath();
  pen.moveTo(from, top);
  pen.lineTo(to, foot);
  pen.stroke();
  pen.beginPath();
  pen.moveTo(to - 5 * Math.cos(angle), foot - 5 * Math.sin(angle));
  for (const turn of [0.4, -0.4]) pen.lineTo(to - 12 * Math.cos(angle + turn), foot - 12 * Math.sin(angle + turn));
  pen.fill();
}

function ring(call, colour, size) {
  const left = x(data.columns.at[call]);
  if (left < LEFT || left > wide) return;
  pen.strokeStyle = colour;
  pen.lineWidth = 2.5;
  pen.beginPath();
  pen.arc(left, middleOf(call), size, 0, 7);
  pen.stroke();
}

// What was found has a ring, or below its call a tick if there are many.
function drawMatches() {
  const { at: ats, lane } = data.columns, seen = matches.filter((it) => ats[it] >= view.from && ats[it] <= view.to);
  if (seen.length <= FEW) {
    for (const it of seen) ring(it, colours.match, 7);
    return;
  }
  const drawn = new Set();
  pen.fillStyle = colours.match;
  for (const it of seen) {
    const left = Math.round(x(ats[it]) / COLUMN) * COLUMN, y = middles[lane[it]] + ROW / 2 - 2, spot = y * 1e5 + left;
    if (!drawn.has(spot)) pen.fillRect(left, y, COLUMN, 3);
    drawn.add(spot);
  }
}

// The legend -----------------------------------------------------------------------------------------

const LEGEND = [
  ["guard", "guard lease held"], ["bridge", "bridge lease held"], ["out", "lease out, not held"],
  ["skew", "over for the task, not for the table"], ["released", "released"], ["may", "may serve the key"],
  ["handle", "handle, until it breaks"], [SERVED, "served or found"], [DENIED, "denied or broken"],
  [REFUSED, "refused"], [DONE, "done"], [WARNED, "untimely, or served by no owner"], ["message", "message"],
];

function drawEntry(ink, name) {
  if (typeof name === "number") {
    drawSign(ink, name, 11, 7);
    return;
  }
  ink.fillStyle = ink.strokeStyle = colours[name] || colours.soft;
  ink.globalAlpha = name === "may" ? 0.4 : 1;
  ink.lineWidth = 1.5;
  ink.beginPath();
  if (name === "out" || name === "message") {
    if (name === "out") ink.setLineDash([3, 3]);
    ink.moveTo(0, 7);
    ink.lineTo(22, 7);
    ink.stroke();
  }
  if (name === "message" || name === "released") {
    const [tip, end] = name === "message" ? [22, 14] : [7, 14];
    ink.beginPath();
    ink.fillStyle = name === "released" ? colours.text : colours.soft;
    ink.moveTo(tip, 7);
    ink.lineTo(end, 2);
    ink.lineTo(end, 12);
    ink.fill();
  } else if (name === "handle") {
    ink.fillStyle = colours["life-edge"];
    ink.fillRect(0, 8, 22, 2);
  } else if (name !== "out") ink.fillRect(0, 1, 22, 12);
}

function legend() {
  const ratio = window.devicePixelRatio || 1;
  const items = LEGEND.map(([name, words]) => {
    const sign = document.createElement("canvas"), item = document.createElement("li");
    [sign.width, sign.height] = [22 * ratio, 14 * ratio];
    const ink = sign.getContext("2d");
    ink.scale(ratio, ratio);
    drawEntry(ink, name);
    item.append(sign, words);
    return item;
  });
  at("legend").replaceChildren(...items);
}
