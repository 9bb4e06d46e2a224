// What hourstable-show wrote into this page, laid out in lanes. All that is decided and worded is in that data.
// All text goes into the page as text, never as HTML.
"use strict";

const KINDS = ["served", "denied", "refused", "done", "warned", "fault", "unjudged"]; // of calls
const SERVED = 0, DENIED = 1, REFUSED = 2, DONE = 3, WARNED = 4, FAULT = 5, UNJUDGED = 6;
const ARROWS = ["grant", "note", "assignment"];
const ROWS = ["phase", "job lease", "life", "guard", "bridge", "handles"]; // those of things that last, from the top
const QUIET = new Set(["out", "skew", "released"]); // the parts of a lease at which it is not held
const MOST_LEVELS = 5; // of a row
const TOP = 44; // pixels, of the numbers of the readings, and of the generations
const ROW = 20, GAP = 8, SPREAD = 5;

let data = null;
let lanes = []; // with their rows, from top to bottom
let middles = []; // of each lane of the data: where its calls are
let shifts = null; // of each call: how far below the middle it is, so that calls at one reading stand apart
let tall = 0; // pixels of all lanes

function bytesOf(text) {
  const packed = atob(text), bytes = new Uint8Array(packed.length);
  for (let it = 0; it < packed.length; it++) bytes[it] = packed.charCodeAt(it);
  return bytes;
}

async function unpacked(text) {
  const stream = new Blob([bytesOf(text)]).stream().pipeThrough(new DecompressionStream("gzip"));
  return new Response(stream).json();
}

// Returns the index of the first number from a place on that is not below a value, in numbers that rise.
function first(numbers, value, from = 0) {
  let low = from, high = numbers.length;
  while (low < high) {
    const middle = (low + high) >> 1;
    if (numbers[middle] < value) low = middle + 1; else high = middle;
  }
  return low;
}

// Things that last: leases, lives, phases, terms, handles -------------------------------------------

// Joins the parts of a thing: they are on one level.
function things() {
  const found = [];
  let last = null;
  for (const [lane, name, look, from, to, label, words, grant] of data.spans) {
    const part = { look, from, to: to === null ? Infinity : to };
    if (!last || !grant || last.grant !== grant || last.lane !== lane || last.name !== name) {
      last = { lane, name, label, words, grant, parts: [], bar: null, from: part.from, to: part.to };
      found.push(last);
    }
    last.parts.push(part);
    last.from = Math.min(last.from, part.from);
    last.to = Math.max(last.to, part.to);
    if (!QUIET.has(look)) last.bar = part;
  }
  return found.sort((one, other) => one.from - other.from);
}

function rowOf(lane, name) {
  let found = lane.rows.find((it) => it.name === name);
  if (!found) {
    found = { name, levels: [], marks: [], y: 0 };
    lane.rows.push(found);
  }
  return found;
}

// Puts a thing on the first level of its row whose bars end before its own. What is out and not held is drawn below
// the bars, so it takes no room.
function place(row, thing) {
  const { from, to } = thing.bar || { from: thing.from, to: thing.from };
  let level = row.levels.find((it) => it.end <= from);
  if (!level && row.levels.length < MOST_LEVELS) {
    level = { things: [], end: 0 };
    row.levels.push(level);
  }
  if (!level) level = row.levels[row.levels.length - 1];
  level.things.push(thing);
  level.end = Math.max(level.end, to);
}

// Adds what finds the things of a level that are in view: they begin in order, and `reach` never falls.
function index(level) {
  let reach = -Infinity;
  level.froms = Float64Array.from(level.things, (it) => it.from);
  level.reach = Float64Array.from(level.things, (it) => (reach = Math.max(reach, it.to)));
}

// Lanes --------------------------------------------------------------------------------------------

function order(name) {
  const [actor, number] = name.split(" ");
  return ["table", "task", "clerk"].indexOf(actor) * 1e6 + Number(number || 0);
}

// Puts the calls of a row that are at one reading below each other.
function spread(row) {
  for (let from = 0, to; from < row.marks.length; from = to) {
    for (to = from + 1; row.ats[to] === row.ats[from];) to++;
    for (let it = from; to - from > 1 && it < to; it++) {
      shifts[row.marks[it]] = SPREAD * (2 * (it - from) / (to - from - 1) - 1);
    }
  }
}

function addCalls() {
  const { at, lane, kind } = data.columns;
  shifts = new Float32Array(at.length);
  for (let call = 0; call < at.length; call++) rowOf(lanes[lane[call]], "calls").marks.push(call);
  for (const row of lanes.flatMap((it) => it.rows)) {
    row.marks.sort((one, other) => at[one] - at[other] || one - other);
    row.ats = Float64Array.from(row.marks, (call) => at[call]);
    row.kinds = Uint8Array.from(row.marks, (call) => kind[call]);
    row.levels.forEach(index);
    spread(row);
  }
}

function build() {
  lanes = data.lanes.map((name) => ({ name, rows: [], stretches: [] }));
  const found = things();
  for (const name of ROWS) {
    for (const thing of found) if (thing.name === name) place(rowOf(lanes[thing.lane], name), thing);
  }
  for (const [lane, from, to, grant] of data.stretches) lanes[lane].stretches.push({ from, to, grant });
  addCalls();
  lanes.sort((one, other) => order(one.name) - order(other.name));
  lay();
}

function lay() {
  let y = TOP;
  for (const lane of lanes) {
    lane.y = y;
    y += ROW;
    for (const row of lane.rows) {
      row.y = y;
      y += ROW * Math.max(row.levels.length, 1);
    }
    y += GAP;
    lane.foot = y - GAP / 2;
  }
  tall = y;
  middles = data.lanes.map((name) => {
    const lane = lanes.find((it) => it.name === name), calls = lane.rows.find((it) => it.name === "calls");
    return (calls ? calls.y : lane.y) + ROW / 2;
  });
}

const middleOf = (call) => middles[data.columns.lane[call]] + shifts[call];

// Returns the lease of a grant, or undefined.
function leaseOf(grant) {
  for (const lane of lanes) {
    for (const row of lane.rows) {
      for (const level of row.levels) {
        const found = grant && level.things.find((it) => it.grant === grant);
        if (found) return { lane, row, thing: found };
      }
    }
  }
  return undefined;
}

// Returns the readings of all calls, with some room. What ends later, as leases do, is found by moving.
function bounds() {
  let to = 1;
  for (const it of data.columns.at) if (it > to) to = it;
  return { from: -to * 0.01, to: to * 1.04 + 1 };
}

// Searching ----------------------------------------------------------------------------------------

let texts = null; // what is searched of each call

function searched() {
  if (texts) return texts;
  const { what, reply, why, place, ticket, lane, kind } = data.columns;
  texts = what.map((it, call) => (
    `${data.lanes[lane[call]]}: ${it}: ${reply[call]}. ${why[call]} ${place[call]} ticket ${ticket[call]}`
    + (kind[call] === FAULT ? " fault" : "")
  ).toLowerCase());
  return texts;
}

const isDigit = (it) => it !== undefined && it >= "0" && it <= "9";

// Returns whether a text has some words: a number is found whole, so `task 2` is not in `task 20`.
function has(text, words) {
  const startsWithDigit = isDigit(words[0]), endsWithDigit = isDigit(words[words.length - 1]);
  for (let it = text.indexOf(words); it >= 0; it = text.indexOf(words, it + 1)) {
    const isCut = startsWithDigit && isDigit(text[it - 1]) || endsWithDigit && isDigit(text[it + words.length]);
    if (!isCut) return true;
  }
  return false;
}

function callsWith(words) {
  const found = [];
  searched().forEach((text, call) => { if (words.every((it) => has(text, it))) found.push(call); });
  return found;
}

// Returns the calls that have a phrase; if none has it, those that have each of its words, but of `key K`.
function matching(phrase) {
  const wanted = phrase.trim().toLowerCase().replace(/\s+/g, " ");
  if (!wanted) return [];
  const found = callsWith([wanted]);
  return found.length || wanted.startsWith("key ") ? found : callsWith(wanted.split(" "));
}

// Returns the calls that have the slice key of a key, the first 63 bits of its SHA-256: logs have no texts of keys.
async function matchingKey(key) {
  if (!key || !window.crypto || !crypto.subtle) return [];
  const digest = await crypto.subtle.digest("SHA-256", new TextEncoder().encode(key));
  return callsWith([String(new DataView(digest).getBigUint64(0) >> 1n)]);
}
