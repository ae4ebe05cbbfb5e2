// The page of bqd-web. Names and bodies are not trusted: they are always set as text, never as markup.
"use strict";

const BETWEEN = 1000;
const SPARKS_BETWEEN = 10000;
const STALE_AFTER = 4000;
const MOST_ROWS = 500;

// How many jobs one call deletes at most, and how many searches for buried jobs follow each other by themselves.
const CLEARED_TOGETHER = 1000;
const MOST_SEARCHES = 10;

const TOTALS = [
  ["ready", "Ready", "ready"], ["reserved", "Reserved", "reserved"], ["delayed", "Delayed", "delayed"], ["buried", "Buried", "buried"],
  ["put_rate", "Puts/s"], ["timeout_rate", "Timeouts/s"], ["waiting", "Waiting"], ["connections", "Clients"],
];

const COLUMNS = [
  {key: "name", label: "Tube"}, {key: "spark", label: "10 min"},
  {key: "ready", label: "Ready"}, {key: "reserved", label: "Reserved"}, {key: "delayed", label: "Delayed"}, {key: "buried", label: "Buried"},
  {key: "put_rate", label: "Puts/s", isRate: true}, {key: "deleted_rate", label: "Deleted/s", isRate: true},
  {key: "waiting", label: "Waiting", isMinor: true}, {key: "watching", label: "Watching", isMinor: true},
];

const CHARTS = [
  [{key: "ready", label: "ready", colour: "ready"}],
  [{key: "reserved", label: "reserved", colour: "reserved"}],
  [{key: "delayed", label: "delayed", colour: "delayed"}],
  [{key: "buried", label: "buried", colour: "buried"}],
  [{key: "put_rate", label: "puts/s", colour: "puts", isRate: true}, {key: "deleted_rate", label: "deleted/s", colour: "deletes", isRate: true}],
];

const STATES = ["ready", "delayed", "buried"];

const token = document.querySelector("meta[name=bqd-token]").content;

const state = {
  order: "trouble", falls: true, filter: "", hides: false, search: null, last: null, time: null, moved: 0, rows: new Map(), shown: [], sparks: {},
  tube: null, charts: null, turn: 0, asks: false,
};

function byId(id) { return document.getElementById(id); }

function element(name, kind, text) {
  const made = document.createElement(name);
  if (kind) made.className = kind;
  if (text !== undefined) made.textContent = text;
  return made;
}

function setText(node, text) {
  if (node.textContent !== text) node.textContent = text;
}

function number(value) { return value === null || value === undefined ? "\u2013" : value.toLocaleString("en-US"); }

function shortNumber(value) { return value >= 100000 ? value.toLocaleString("en-US", {notation: "compact"}) : number(value); }

function rate(value) {
  if (value === null || value === undefined) return "\u2013";
  return value >= 100 ? number(Math.round(value)) : value.toLocaleString("en-US", {maximumFractionDigits: 1});
}

// Returns a moment as a time of day and how long ago it was, with the date if that was not today.
function moment(seconds) {
  const then = new Date(seconds * 1000), isToday = then.toDateString() === new Date().toDateString();
  return `${isToday ? then.toLocaleTimeString() : then.toLocaleString()} (${duration(Math.max(0, Math.round(Date.now() / 1000 - seconds)))} ago)`;
}

function duration(seconds) {
  if (seconds < 120) return `${seconds} s`;
  if (seconds < 7200) return `${Math.floor(seconds / 60)} min`;
  return seconds < 172800 ? `${Math.floor(seconds / 3600)} h` : `${Math.floor(seconds / 86400)} days`;
}

// Returns the JSON that a path answers; null if no answer comes in time.
async function fetched(path, options) {
  const stop = new AbortController();
  const timer = setTimeout(() => stop.abort(), 8000);
  try {
    const answer = await fetch(path, {signal: stop.signal, cache: "no-store", ...options});
    return await answer.json();
  } catch (fault) {
    return null;
  } finally {
    clearTimeout(timer);
  }
}

// The status in the bar, and the line that says why there are no numbers.
function showStatus(found) {
  const now = performance.now();
  if (found && found.up && found.time !== state.time) {
    state.time = found.time;
    state.moved = now;
  }
  const stale = now - state.moved > STALE_AFTER;
  const kind = !found || !found.up ? "bad" : stale ? "late" : "live";
  const text = !found ? "bqd-web does not answer" : !found.up ? "down" : stale ? `no news for ${duration(Math.round((now - state.moved) / 1000))}` : "live";
  byId("status").className = `status ${kind}`;
  setText(byId("status"), text);
  document.querySelector("main").classList.toggle("stale", kind !== "live");
  const down = byId("down");
  down.hidden = Boolean(found && found.up);
  if (!found) setText(down, "bqd-web does not answer. The numbers below are the last ones that came.");
  else if (!found.up) setText(down, `The server has not answered since ${moment(found.since)}: ${found.why}.`);
  showRestart(found && found.restart);
}

// The banner after a restart, until it is dismissed in this window.
function showRestart(restart) {
  byId("restarted").hidden = !restart || sessionStorage.getItem("dismissed") === String(restart.time);
  if (!restart) return;
  state.restart = String(restart.time);
  const lost = restart.jobs ? `the ${number(restart.jobs)} ${restart.jobs === 1 ? "job" : "jobs"} that it had ${restart.jobs === 1 ? "is" : "are"} gone unless dumped or moved before.` : "it had no jobs at the last reading.";
  setText(byId("restarted-text"), `The server was restarted at ${moment(restart.time)}. Its queue is in memory: ${lost}`);
}

function showTotals(found) {
  const tiles = byId("totals");
  if (!tiles.children.length) {
    for (const [, label, colour] of TOTALS) {
      const tile = element("div", "tile");
      if (colour) tile.style.setProperty("--mark", `var(--${colour})`);
      tile.append(element("div", "value", "\u2013"), element("div", "label", label));
      tiles.append(tile);
    }
  }
  TOTALS.forEach(([key], at) => {
    const value = found[key], tile = tiles.children[at];
    const text = key.endsWith("_rate") ? rate(value) : shortNumber(value);
    const of = key === "connections" && found.seats ? ` of ${number(found.seats)}` : "";
    if (tile.firstChild.textContent !== text + of) tile.firstChild.replaceChildren(text, ...(of ? [element("span", "of", of)] : []));
    const isFull = of && value >= .9 * found.seats;
    tile.classList.toggle("bad", Boolean(isFull || value && (key === "buried" || key === "timeout_rate")));
  });
  byId("draining").hidden = !found.draining;
}

// Returns how much a tube needs a person: 3 with buried jobs, 2 with ready jobs that no client can get, 1 with ready jobs
// while none of its clients waits, 0 otherwise.
function trouble(tube) {
  if (tube.buried) return 3;
  if (tube.ready && (tube.pause || !tube.watching)) return 2;
  return tube.ready && !tube.waiting ? 1 : 0;
}

function isEmpty(tube) { return !(tube.ready || tube.reserved || tube.delayed || tube.buried); }

// Returns the tubes that pass the filter, in the chosen order.
function chosen(tubes) {
  const wanted = state.filter.toLowerCase();
  const found = tubes.filter(it => it.name.toLowerCase().includes(wanted) && !(state.hides && isEmpty(it)));
  const byName = (a, b) => a.name < b.name ? -1 : 1, way = state.falls ? -1 : 1;
  const by = {
    name: (a, b) => way * byName(a, b),
    trouble: (a, b) => way * (trouble(a) - trouble(b) || a.buried - b.buried || a.ready - b.ready) || byName(a, b),
  };
  return found.sort(by[state.order] || ((a, b) => way * ((a[state.order] || 0) - (b[state.order] || 0)) || byName(a, b)));
}

function madeRow(tube) {
  const row = element("tr");
  row.cells_ = {};
  for (const column of COLUMNS) {
    const cell = element(column.key === "name" ? "th" : "td", column.key === "name" || column.key === "spark" ? column.key : "count");
    if (column.key === "name") cell.scope = "row";
    if (column.isMinor) cell.classList.add("minor");
    cell.dataset.label = column.label;
    row.append(cell);
    row.cells_[column.key] = cell;
  }
  const link = element("a", "", tube.name);
  link.href = "#" + encodeURIComponent(tube.name);
  link.title = tube.name;
  row.paused = element("span", "badge warn");
  row.unwatched = element("span", "badge warn", "no worker");
  const named = element("div", "named");
  named.append(link, row.paused, row.unwatched);
  row.cells_.name.append(named);
  row.svg = svgElement("svg", {"aria-hidden": "true"});
  row.cells_.spark.append(row.svg);
  return row;
}

function fillRow(row, tube) {
  for (const column of COLUMNS.slice(2)) {
    const cell = row.cells_[column.key], value = tube[column.key];
    setText(cell, column.isRate ? rate(value) : number(value));
    cell.classList.toggle("zero", !value);
    if (column.key === "buried") cell.classList.add("buried");
  }
  row.paused.hidden = !tube.pause;
  row.unwatched.hidden = !tube.ready || tube.watching > 0 || tube.pause > 0;
  if (tube.pause) setText(row.paused, `paused ${duration(tube.pause)}`);
  const spark = state.sparks[tube.name];
  if (spark && row.spark !== spark) {
    row.spark = spark;
    drawSpark(row.svg, spark);
    row.svg.classList.toggle("flat", !spark.some(it => it));
  }
}

function showList(found) {
  const tubes = chosen(found.tubes), shown = tubes.slice(0, MOST_ROWS);
  setText(byId("count"), state.filter || state.hides ? `${number(tubes.length)} of ${number(found.tubes.length)}` : number(tubes.length));
  for (const tube of shown) {
    if (!state.rows.has(tube.name)) state.rows.set(tube.name, madeRow(tube));
    fillRow(state.rows.get(tube.name), tube);
  }
  const names = shown.map(it => it.name);
  if (names.length !== state.shown.length || names.some((it, at) => it !== state.shown[at])) {
    byId("rows").replaceChildren(...names.map(it => state.rows.get(it)));
    state.shown = names;
    const kept = new Set(found.tubes.map(it => it.name));
    for (const it of state.rows.keys()) if (!kept.has(it)) state.rows.delete(it);
  }
  const further = tubes.length - shown.length, empty = byId("empty");
  const isNew = found.tubes.every(isEmpty) && !found.put_rate && !state.filter;
  empty.hidden = shown.length > 0 && !further && !isNew;
  const none = state.filter ? "No tube has such a name." : "No tube has jobs.";
  setText(empty, further ? `and ${number(further)} further tubes: filter them by name` : isNew ? "There are no jobs. To put one:\necho hello | bqctl put default" : none);
}

function showHeads() {
  for (const cell of byId("heads").children) {
    if (cell.dataset.key && cell.dataset.key === state.order) cell.setAttribute("aria-sort", state.falls ? "descending" : "ascending");
    else cell.removeAttribute("aria-sort");
  }
  byId("order").value = state.order;
}

// Sorts by a column, numbers from the largest down. Choosing the same column again reverses the order.
function sortBy(key, turns) {
  state.falls = turns && state.order === key ? !state.falls : key !== "name";
  state.order = key;
  remember();
  showHeads();
  if (state.last) showList(state.last);
}

// The order, the filter and what is hidden are in the address, so that a reload or a bookmark keeps them.
function remember() {
  const words = new URLSearchParams();
  if (state.order !== "trouble" || !state.falls) words.set("sort", (state.falls ? "-" : "") + state.order);
  if (state.filter) words.set("filter", state.filter);
  if (state.hides) words.set("hide", "empty");
  history.replaceState(null, "", location.pathname + (words.toString() ? `?${words}` : "") + location.hash);
}

function recall() {
  const words = new URLSearchParams(location.search), sort = words.get("sort") || "-trouble";
  const order = sort.replace(/^-/, "");
  if (order === "trouble" || COLUMNS.some(it => it.key === order && order !== "spark")) {
    state.order = order;
    state.falls = sort.startsWith("-");
  }
  state.filter = byId("filter").value = words.get("filter") || "";
  state.hides = byId("hides").checked = words.get("hide") === "empty";
}

function makeHeads() {
  const first = element("option", "", "Trouble first");
  first.value = "trouble";
  byId("order").append(first);
  for (const column of COLUMNS) {
    const head = element("th", column.key);
    head.scope = "col";
    if (column.isMinor) head.classList.add("minor");
    const key = column.key === "spark" ? "ready" : column.key;
    if (column.key !== "spark") head.dataset.key = key;
    const button = element("button", "", column.label);
    button.addEventListener("click", () => sortBy(key, true));
    head.append(button);
    byId("heads").append(head);
    if (column.key === "spark") continue;
    const option = element("option", "", column.label);
    option.value = key;
    byId("order").append(option);
  }
  byId("order").addEventListener("change", event => sortBy(event.target.value, false));
  showHeads();
}

// One tube.

function showTube(found) {
  const gone = !found || !found.points;
  byId("gone").hidden = !gone;
  byId("charts").hidden = byId("jobs").hidden = byId("clients").hidden = gone;
  byId("buried").hidden = gone || !found.buried && !byId("buried-rows").children.length;
  document.querySelector("#tube h2").hidden = gone;
  byId("actions").hidden = gone || !token;
  byId("paused").hidden = gone || !found.pause;
  if (gone) {
    setText(byId("gone"), found && found.gone ? "There is no such tube now. It exists while it has jobs or clients." : found && found.why ? "The server does not answer." : "No answer came.");
    return;
  }
  setText(byId("paused"), `paused ${duration(found.pause)}`);
  state.charts.forEach(it => it.draw(found.points, found, found.every));
  const clients = `${number(found.using)} using, ${number(found.watching)} watching, ${number(found.waiting)} waiting.`;
  setText(byId("clients"), `Clients: ${clients} Since the tube has existed: ${number(found.puts)} puts, ${number(found.deletes)} deleted.`);
  const cards = byId("jobs").children;
  STATES.forEach((it, at) => showJob(cards[at], it, found.first && found.first[it], found[it]));
  if (!token) return;
  byId("unpause").hidden = !found.pause;
  byId("kick-1").hidden = byId("kick-1000").hidden = !found.buried && !found.delayed;
}

function makeTube() {
  state.charts = CHARTS.map(it => new Chart(it));
  byId("charts").append(...state.charts.map(it => it.root));
  for (const it of STATES) {
    const card = element("article", "job"), top = element("div", "top");
    card.style.setProperty("--mark", `var(--${it})`);
    card.setAttribute("aria-labelledby", `first-${it}`);
    card.title_ = element("h3");
    card.title_.id = `first-${it}`;
    card.state_ = element("p", "state");
    card.facts = element("dl");
    card.body = element("pre");
    card.body.tabIndex = 0;
    card.body.setAttribute("aria-label", `Body of the first ${it} job`);
    card.cut = element("p", "cut");
    top.append(card.title_);
    if (token) {
      card.button = element("button", "small danger", "Delete");
      card.button.addEventListener("click", () => act("delete", `Delete ${it} job ${card.job} of ${state.tube}? It is lost then.`, {id: card.job}));
      card.all = element("button", "small danger");
      card.all.addEventListener("click", () => clearAll(it, card.count));
      top.append(card.button, card.all);
    }
    card.append(top, card.state_, card.facts, card.body, card.cut);
    byId("jobs").append(card);
  }
  makeActions();
}

// Returns JSON with a line for each value; any other text as it is. Only spaces between the values change, so that no
// number is rounded and no key is lost.
function indented(text) {
  try {
    if (typeof JSON.parse(text) !== "object") return text;
  } catch (fault) {
    return text;
  }
  let made = "", deep = 0;
  for (const it of text.match(/"(?:[^"\\]|\\.)*"|[{}[\],:]|[^\s{}[\],:"]+/g) || []) {
    if (it === "}" || it === "]") {
      deep--;
      made = /[{[]$/.test(made.trimEnd()) ? made.trimEnd() + it : made.trimEnd() + "\n" + "  ".repeat(deep) + it;
      continue;
    }
    if (it === "{" || it === "[") deep++;
    made += it;
    if (it === ":") made += " ";
    else if (it === "," || it === "{" || it === "[") made += "\n" + "  ".repeat(deep);
  }
  return made;
}

// Returns the facts of a job, each a label and a value.
function factsOf(kind, job) {
  const size = [["size", `${number(job.size)} bytes`]];
  if (job.pri === undefined) return size;
  const left = kind === "delayed" && job["time-left"] !== undefined ? [["ready in", duration(job["time-left"])]] : [];
  return [["priority", number(job.pri)], ["put", `${duration(job.age)} ago`], ...left, ["time to run", duration(job.ttr)],
    ["reserved", `${job.reserves}\u00d7`], ["timed out", `${job.timeouts}\u00d7`], ["buried", `${job.buries}\u00d7`], ...size];
}

function showJob(card, kind, job, count) {
  card.job = job && job.id;
  card.count = count;
  card.body.hidden = card.facts.hidden = card.state_.hidden = !job;
  if (card.button) {
    card.button.hidden = !job;
    card.all.hidden = !job || count < 2;
    setText(card.all, `Delete all ${number(count)}`);
    card.button.setAttribute("aria-label", `Delete ${kind} job ${card.job}`);
    card.all.setAttribute("aria-label", `Delete all ${number(count)} ${kind} jobs`);
  }
  setText(card.title_, job ? `Job ${job.id}` : `No ${kind} job`);
  card.cut.hidden = !job || job.shown >= job.size;
  if (!job) return;
  setText(card.state_, {ready: "Ready: handed out next", delayed: "Delayed: ready first", buried: "Buried: first of them"}[kind]);
  const facts = factsOf(kind, job), told = JSON.stringify(facts);
  if (card.told !== told) {
    card.told = told;
    card.facts.replaceChildren(...facts.map(([label, value]) => {
      const line = element("div");
      line.append(element("dt", "", label), element("dd", "", value));
      return line;
    }));
  }
  card.body.className = job.kind;
  setText(card.body, job.kind === "text" ? indented(job.text) : job.text);
  if (!job.size) card.body.hidden = true;
  setText(card.cut, `The first ${number(job.shown)} of ${number(job.size)} bytes.`);
}

// The list of buried jobs. The protocol shows only the first one, so the server's ids are searched, some at a time.

function clearSearch() {
  state.search = null;
  byId("buried-rows").replaceChildren();
  byId("buried-card").hidden = true;
  setText(byId("searched"), "");
  setText(byId("search"), "List them");
  byId("search").hidden = false;
}

// Searches on, or from the beginning. First come the ids from that of the first buried job on, then those below it.
async function search() {
  const tube = state.tube, button = byId("search");
  if (!state.search) clearSearch();
  const known = state.search || {next: "", until: "", first: null, isLast: false, found: 0};
  state.search = known;
  button.disabled = true;
  for (let turn = 0; turn < MOST_SEARCHES && known.next !== null; turn++) {
    const range = known.next === "" ? "" : `&from=${known.next}&until=${known.until}`;
    const found = await fetched(`api/buried?name=${encodeURIComponent(tube)}${range}`);
    if (state.search !== known) break;
    if (!found || found.failed) {
      setText(byId("searched"), found ? found.failed : "No answer came.");
      break;
    }
    if (known.first === null) known.first = found.first;
    known.found += found.jobs.length;
    byId("buried-rows").append(...found.jobs.map(it => madeBuried(it, tube)));
    [known.next, known.until] = [found.next, found.until];
    if (known.next === null && !known.isLast && BigInt(known.first) > 1n && known.found < found.count) {
      known.isLast = true;
      [known.next, known.until] = ["1", String(BigInt(known.first) - 1n)];
    }
    if (known.found >= found.count) known.next = null;
  }
  button.disabled = false;
  if (state.search !== known) return;
  byId("buried-card").hidden = !known.found;
  setText(byId("searched"), `${number(known.found)} found` + (known.next ? `, further ids from ${known.next} on` : ""));
  setText(button, known.next ? "Search on" : "List them again");
  if (!known.next) state.search = null;
}

function madeBuried(job, tube) {
  const row = element("tr"), title = element("th", "", job.id), does = element("td", "does");
  title.scope = "row";
  row.append(title, element("td", "", `${duration(job.age)} ago`), element("td", "", `${job.reserves}\u00d7, timed out ${job.timeouts}\u00d7`),
    element("td", "body", job.text.length > 300 ? `${job.text.slice(0, 300)}\u2026` : job.text), does);
  if (token) {
    for (const [what, word, question, kind] of [
      ["kick-job", "Kick", `Kick buried job ${job.id} of ${tube}?`, "small"],
      ["delete", "Delete", `Delete buried job ${job.id} of ${tube}? It is lost then.`, "small danger"],
    ]) {
      const button = element("button", kind, word);
      button.setAttribute("aria-label", `${word} buried job ${job.id}`);
      button.addEventListener("click", async () => {
        if (await act(what, question, {id: job.id})) row.remove();
      });
      does.append(button);
    }
  }
  return row;
}

// Actions that change something. They are shown only if the server allows them.

function makeActions() {
  if (!token) return;
  const made = (text, what, question, more, seconds) => {
    const button = element("button", "", text);
    button.addEventListener("click", () => act(what, question(), more, seconds));
    byId("actions").append(button);
    return button;
  };
  made("Kick 1", "kick", () => `Kick one buried job of ${state.tube}, or a delayed one if none is buried?`, {count: 1}).id = "kick-1";
  made("Kick 1,000", "kick", () => `Kick up to 1,000 buried jobs of ${state.tube}, or delayed ones if none is buried?`, {count: 1000}).id = "kick-1000";
  made("Pause", "pause", () => `Pause ${state.tube}, so that none of its jobs is handed out?`, {}, true);
  made("Unpause", "unpause", () => `End the pause of ${state.tube}?`, {}).id = "unpause";
}

// Carries out an action after a question. Returns whether it was done.
async function act(what, question, more, wantsSeconds) {
  const tube = state.tube;
  if (!await confirmed(what, question, wantsSeconds)) return false;
  const found = await sent(what, {tube, ...more, ...(wantsSeconds ? {seconds: Number(byId("seconds").value)} : {})});
  tell(!found ? "It was refused. Load the page again." : found.done || found.failed);
  return Boolean(found && found.done);
}

function sent(what, words) {
  const options = {method: "POST", body: JSON.stringify(words), headers: {"Content-Type": "application/json", "X-Bqd-Token": token}};
  return fetched(`api/${what}`, options);
}

// Deletes as many jobs of a state as there were when the question was asked.
async function clearAll(kind, count) {
  const tube = state.tube;
  if (!await confirmed("delete", `Delete all ${number(count)} ${kind} jobs of ${tube}? They are lost then.`)) return;
  let deleted = 0, found = null;
  while (deleted < count) {
    found = await sent("clear", {tube, state: kind, count: Math.min(CLEARED_TOGETHER, count - deleted)});
    if (!found || !found.count) break;
    deleted += found.count;
    tell(`deleted ${number(deleted)} of ${number(count)} ${kind} jobs of ${tube}`);
  }
  if (!found) tell("It was refused. Load the page again.");
  else if (found.failed) tell(found.failed);
  else tell(`deleted ${number(deleted)} ${kind} ${deleted === 1 ? "job" : "jobs"} of ${tube}`);
  if (kind === "buried" && tube === state.tube) clearSearch();
}

// Asks a question, one at a time, so that an answer never belongs to another one.
async function confirmed(what, question, wantsSeconds) {
  if (state.asks) return false;
  state.asks = true;
  const sure = await answered(what, question, wantsSeconds);
  state.asks = false;
  return sure;
}

function answered(what, question, wantsSeconds) {
  const dialog = byId("confirm"), word = what.split("-")[0];
  setText(byId("question"), question);
  setText(byId("yes"), word[0].toUpperCase() + word.slice(1));
  byId("yes").classList.toggle("danger", word === "delete");
  byId("seconds-line").hidden = !wantsSeconds;
  // A field that is disabled does not keep the form from being sent.
  byId("seconds").disabled = !wantsSeconds;
  if (!byId("seconds").validity.valid) byId("seconds").value = 600;
  dialog.returnValue = "no";
  dialog.showModal();
  return new Promise(done => dialog.addEventListener("close", () => {
    done(dialog.returnValue === "yes" && (!wantsSeconds || byId("seconds").validity.valid));
  }, {once: true}));
}

let untold = null;

function tell(text) {
  const told = byId("told");
  setText(told, text);
  told.hidden = false;
  clearTimeout(untold);
  untold = setTimeout(() => { told.hidden = true; }, 5000);
}

// The current view, from the part of the address after the #.

function looks() {
  let name = "";
  try {
    name = decodeURIComponent(location.hash.slice(1));
  } catch (fault) {
    name = "";
  }
  state.tube = name || null;
  byId("list").hidden = Boolean(name);
  byId("tube").hidden = !name;
  byId("totals").hidden = Boolean(name);
  if (name && !state.charts) makeTube();
  clearSearch();
  setText(byId("name"), name);
  document.title = name ? `${name} \u00b7 bqd` : "bqd";
  window.scrollTo(0, 0);
  turn();
}

// Updates once a second. A loop that starts later stops the earlier ones.
async function turn() {
  const own = ++state.turn;
  for (let wait = SPARKS_BETWEEN; own === state.turn; wait += BETWEEN) {
    if (!document.hidden) {
      if (wait >= SPARKS_BETWEEN && !state.tube) {
        const sparks = await fetched("api/sparks");
        if (sparks) state.sparks = sparks.tubes;
        wait = 0;
      }
      const tube = state.tube;
      const [found, about] = await Promise.all([fetched("api/state"), tube && fetched("api/tube?name=" + encodeURIComponent(tube))]);
      if (own !== state.turn) return;
      try {
        show(found, tube, about);
      } catch (fault) {
        // An error in this page: the next update may succeed.
        console.error(fault);
      }
    }
    await new Promise(done => setTimeout(done, BETWEEN));
  }
}

function show(found, tube, about) {
  showStatus(found);
  if (found && found.server) setText(byId("server"), found.server);
  if (found && found.version) setText(byId("version"), `bqd-web ${found.version} \u00b7 man bqd-web`);
  if (found && found.up) {
    state.last = found;
    showTotals(found);
    if (!tube) showList(found);
  }
  // While the server is down, a tube stays as it was shown.
  if (tube && about && (about.points || about.gone || !state.last)) showTube(about);
}

recall();
makeHeads();
byId("filter").addEventListener("input", event => {
  state.filter = event.target.value;
  remember();
  if (state.last) showList(state.last);
});
byId("hides").addEventListener("change", event => {
  state.hides = event.target.checked;
  remember();
  if (state.last) showList(state.last);
});
byId("no").addEventListener("click", () => byId("confirm").close("no"));
byId("search").addEventListener("click", search);
byId("dismiss").addEventListener("click", () => {
  sessionStorage.setItem("dismissed", state.restart);
  byId("restarted").hidden = true;
});
window.addEventListener("hashchange", looks);
document.addEventListener("visibilitychange", () => { if (!document.hidden) turn(); });
looks();
