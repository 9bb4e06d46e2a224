// Moving, choosing, searching, and what mouse and keyboard do.

const NEAR = 15; // calls on each side that are in view around a fault
const MOST_LINKS = 12;

// Moving -------------------------------------------------------------------------------------------

function look(from, to) {
  const whole = bounds();
  const least = 4, most = (whole.to - whole.from) * 4;
  const span = Math.min(Math.max(to - from, least), most);
  const middle = (from + to) / 2;
  const low = Math.min(Math.max(middle - span / 2, whole.from - span / 2), most - span / 2);
  view = { from: low, to: low + span };
  measure();
  redraw();
}

function zoom(factor, about) {
  const fixed = about === undefined ? (view.from + view.to) / 2 : about;
  look(fixed - (fixed - view.from) * factor, fixed + (view.to - fixed) * factor);
}

function pan(part) {
  const by = (view.to - view.from) * part;
  look(view.from + by, view.to + by);
}

function lookAtAll() {
  look(bounds().from, bounds().to);
}

// Scrolls until a height is well in view.
function bringIntoView(y) {
  if (y < box.scrollTop + TOP + 2 * ROW) box.scrollTop = y - TOP - 4 * ROW;
  else if (y > box.scrollTop + box.clientHeight - 2 * ROW) box.scrollTop = y - box.clientHeight + 4 * ROW;
}

// Moves a reading and a height into view.
function goTo(reading, y) {
  const span = view.to - view.from;
  bringIntoView(y);
  if (reading > view.from + span * 0.05 && reading < view.to - span * 0.05) {
    redraw();
    return;
  }
  const from = Math.max(reading - span / 2, bounds().from);
  look(from, from + span);
}

// Zooms in on a call and those around it.
function zoomTo(call) {
  const ats = Float64Array.from(data.columns.at).sort(), middle = first(ats, data.columns.at[call]);
  const low = ats[Math.max(middle - NEAR, 0)], end = ats[Math.min(middle + NEAR, ats.length - 1)];
  const room = Math.max((end - low) * 0.1, 2);
  look(low - room, end + room);
}

// Choosing -----------------------------------------------------------------------------------------

function link(words, act) {
  const button = document.createElement("button"), item = document.createElement("li");
  button.type = "button";
  button.textContent = words;
  button.addEventListener("click", act);
  item.append(button);
  return item;
}

function tell({ what, where = "", reply = "", kind = "", why = "", links = [] }) {
  at("what").textContent = what;
  at("where").textContent = where;
  at("reply").textContent = reply;
  at("reply").className = kind;
  at("why").textContent = why;
  at("links").replaceChildren(...links.slice(0, MOST_LINKS));
  redraw();
}

function clear() {
  [chosen, chosenGrant] = [-1, 0];
  tell({ what: "Nothing is selected", why: "Click on a call or on a lease for its reason." });
}

function leaseLinks(grant) {
  const lease = leaseOf(grant), heard = data.heard[grant], links = [];
  if (lease) {
    const y = lease.row.y + ROW / 2;
    links.push(link(`Show the lease of grant ${grant}`, () => goTo((lease.thing.bar || lease.thing).from, y)));
  }
  if (heard !== undefined) links.push(link("Where it was heard", () => pick(heard)));
  return links;
}

// The link to another call that decides, if it is on the page.
function otherLinks(call) {
  const { number, other } = data.columns, index = number.indexOf(other[call]);
  return other[call] && index >= 0 ? [link("Show the other call", () => pick(index))] : [];
}

function messageLinks(call) {
  return data.arrows.flatMap(([sender, receiver, kind]) => {
    if (sender === call) return [link(`Where this ${ARROWS[kind]} was delivered`, () => pick(receiver))];
    return receiver === call ? [link(`Who sent this ${ARROWS[kind]}`, () => pick(sender))] : [];
  });
}

function choose(call) {
  const columns = data.columns, reading = String(BigInt(data.base) + BigInt(columns.at[call]));
  const ticket = columns.ticket[call] ? `, ticket ${columns.ticket[call]}` : "";
  [chosen, chosenGrant] = [call, columns.decides[call]];
  tell({
    what: columns.what[call], where: `${columns.place[call]}${ticket}, at ${reading}`, reply: columns.reply[call],
    kind: KINDS[columns.kind[call]], why: columns.why[call],
    links: [...leaseLinks(chosenGrant), ...otherLinks(call), ...messageLinks(call)],
  });
}

function pick(call) {
  choose(call);
  goTo(data.columns.at[call], middleOf(call));
}

function chooseThing(thing) {
  [chosen, chosenGrant] = [-1, thing.grant];
  tell({ what: thing.label, where: data.lanes[thing.lane], why: thing.words, links: leaseLinks(thing.grant).slice(1) });
}

function chooseStretch(lane, stretch) {
  const [from, to] = [stretch.from, stretch.to].map((it) => BigInt(data.base) + BigInt(it));
  [chosen, chosenGrant] = [-1, stretch.grant];
  const why = `It may serve the key from ${from} to ${to}, under the lease of grant ${stretch.grant}.`;
  tell({ what: `${lane.name} may serve the key`, where: lane.name, why, links: leaseLinks(stretch.grant) });
}

function step(by) {
  const many = data.columns.at.length;
  if (many === 0) return;
  const next = chosen < 0 ? (by > 0 ? 0 : many - 1) : Math.min(Math.max(chosen + by, 0), many - 1);
  pick(next);
}

function goToFault() {
  if (data.fault === null) return;
  choose(data.fault);
  zoomTo(data.fault);
  bringIntoView(middleOf(data.fault));
}

// What is at a place --------------------------------------------------------------------------------

// Returns the call of a row whose mark is nearest to a place, -1 if none is near.
function callNear(row, left, y) {
  const place = first(row.ats, reading(left));
  let best = -1, distance = 9;
  for (let it = Math.max(place - 60, 0); it < Math.min(place + 60, row.marks.length); it++) {
    const away = Math.hypot(x(row.ats[it]) - left, (middleOf(row.marks[it]) - y) / 2);
    if (away < distance) [best, distance] = [row.marks[it], away];
  }
  return best;
}

// Returns the thing of a level at a place: the one whose bar is there before one that is out.
function thingAt(level, left) {
  const from = first(level.reach, reading(left - 2)), to = first(level.froms, reading(left + 2));
  const near = level.things.slice(from, to), isIn = (it) => it && x(it.from) - 2 <= left && left <= x(it.to) + 2;
  return near.find((it) => isIn(it.bar)) || near.find(isIn);
}

// Returns what chooses the thing at a place of the picture, and its words; null if there is nothing.
function thereAt(left, top) {
  const y = top + scrolled(), lane = top > TOP && left > LEFT - 6 && lanes.find((it) => y >= it.y && y < it.foot);
  if (!lane) return null;
  const row = lane.rows.find((it) => y >= it.y && y < it.y + ROW * Math.max(it.levels.length, 1));
  const call = row && row.marks.length ? callNear(row, left, y) : -1;
  if (call >= 0) {
    return { words: `${data.columns.what[call]}: ${data.columns.reply[call]}`, choose: () => choose(call) };
  }
  const level = row && row.levels[Math.floor((y - row.y) / ROW)], thing = level && thingAt(level, left);
  if (thing) return { words: thing.words, choose: () => chooseThing(thing) };
  const stretch = lane.stretches.find((it) => x(it.from) <= left && left <= x(it.to));
  return stretch ? { words: "may serve the key", choose: () => chooseStretch(lane, stretch) } : null;
}

// Searching ----------------------------------------------------------------------------------------

function tellMatches(found, words) {
  matches = found;
  at("matches").textContent = words.trim() ? `${matches.length} found` : "";
  redraw();
}

async function search(words) {
  tellMatches(matching(words), words);
  if (matches.length > 0) return;
  const found = await matchingKey(words.trim().replace(/^key /, ""));
  if (found.length > 0 && at("words").value === words) tellMatches(found, words);
}

function nextMatch(by) {
  if (matches.length === 0) return;
  const after = matches.findIndex((it) => it > chosen);
  let place = by > 0 ? after : (after < 0 ? matches.length : after) - 1 - (matches.includes(chosen) ? 1 : 0);
  if (place < 0) place = by > 0 ? 0 : matches.length - 1;
  pick(matches[place]);
  at("matches").textContent = `${place + 1} of ${matches.length}`;
}

// Events -------------------------------------------------------------------------------------------

const moveDown = (pixels) => { box.scrollTop += pixels; };
const KEYS = {
  "ArrowLeft": () => pan(-0.2), "ArrowRight": () => pan(0.2), "ArrowUp": () => moveDown(-3 * ROW),
  "ArrowDown": () => moveDown(3 * ROW), "PageUp": () => pan(-0.9), "PageDown": () => pan(0.9),
  "+": () => zoom(0.5), "=": () => zoom(0.5), "-": () => zoom(2), "0": lookAtAll, "Home": lookAtAll,
  "n": () => step(1), "p": () => step(-1), "Escape": clear, "f": goToFault,
};

function onFieldKey(event) {
  if (event.key === "Enter" && event.shiftKey) {
    event.preventDefault();
    nextMatch(-1);
  } else if (event.key === "Escape") {
    at("words").value = "";
    search("");
    canvas.focus();
  }
}

function onKey(event) {
  if (event.ctrlKey || event.metaKey || event.altKey) return;
  if (event.target instanceof HTMLInputElement) onFieldKey(event);
  else if (event.key === "/") {
    event.preventDefault();
    at("words").focus();
  } else if (KEYS[event.key]) {
    event.preventDefault();
    KEYS[event.key]();
  }
}

function drag() {
  let from = null;
  canvas.addEventListener("pointerdown", (event) => {
    if (event.button !== 0) return;
    from = { left: event.offsetX, top: event.clientY, scroll: box.scrollTop, view, moved: false };
    canvas.setPointerCapture(event.pointerId);
  });
  canvas.addEventListener("pointermove", (event) => {
    if (!from) {
      hint(event.offsetX, event.offsetY);
      return;
    }
    const across = from.left - event.offsetX, down = from.top - event.clientY;
    if (Math.abs(across) + Math.abs(down) > 3) from.moved = true;
    if (!from.moved) return;
    canvas.classList.add("dragged");
    box.scrollTop = from.scroll + down;
    look(from.view.from + across / scale, from.view.to + across / scale);
  });
  const end = (event) => {
    canvas.classList.remove("dragged");
    if (from && !from.moved && event.type === "pointerup") (thereAt(event.offsetX, event.offsetY) || { choose: clear }).choose();
    from = null;
  };
  canvas.addEventListener("pointerup", end);
  canvas.addEventListener("pointercancel", end);
  canvas.addEventListener("dblclick", (event) => zoom(0.25, reading(event.offsetX)));
}

// Says in a few words what is below the mouse.
function hint(left, top) {
  const there = thereAt(left, top);
  canvas.title = there ? there.words : "";
  canvas.classList.toggle("over", there !== null);
}

function turn() {
  canvas.addEventListener("wheel", (event) => {
    event.preventDefault();
    const by = event.deltaMode ? event.deltaY * ROW : event.deltaY;
    if (event.shiftKey || Math.abs(event.deltaX) > Math.abs(event.deltaY)) pan((event.deltaX || by) / wide);
    else if (event.offsetX < LEFT) moveDown(by);
    else zoom(1.25 ** Math.max(Math.min(by / 100, 3), -3), reading(event.offsetX));
  }, { passive: false });
  box.addEventListener("scroll", redraw);
}

function onMedia(isPrint) {
  isPrinted = isPrint;
  readColours();
  legend();
  draw();
}

function listen() {
  drag();
  turn();
  document.addEventListener("keydown", onKey);
  at("words").addEventListener("input", () => search(at("words").value));
  at("search").addEventListener("submit", (event) => {
    event.preventDefault();
    nextMatch(1);
  });
  const buttons = { in: () => zoom(0.5), out: () => zoom(2), all: lookAtAll, fault: goToFault };
  for (const [name, act] of Object.entries(buttons)) at(name).addEventListener("click", act);
  new ResizeObserver(redraw).observe(at("picture"));
  const printed = matchMedia("print");
  matchMedia("(prefers-color-scheme: dark)").addEventListener("change", () => onMedia(printed.matches));
  printed.addEventListener("change", () => onMedia(printed.matches));
  addEventListener("beforeprint", () => onMedia(true));
  addEventListener("afterprint", () => onMedia(false));
}

async function begin() {
  data = await unpacked(at("data").textContent);
  at("data").remove();
  document.title = at("title").textContent = data.title;
  at("report").textContent = data.report;
  at("fault").hidden = data.fault === null;
  readColours();
  build();
  listen();
  legend();
  view = bounds();
  measure();
  clear();
  goToFault();
  draw();
  document.body.dataset.ready = "yes";
}

begin();
