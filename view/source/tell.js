// ---- what is told of a period

// what is drawn: a run, the scenario that is its pair, the relay rounds that the user gave, the names of both, a scenario that waits for
// its text or is offered to this one, the width of a column, the place that the words tell of, and what happens
const state = { run: null, plan: null, given: null, names: { text: "", plan: "" }, offered: null, width: 24, period: 0, node: 0, events: [] };

// the node whose state tells the counts and members of a period: the first that has a state, a nonfaulty one where there is one
function teller(period) { return period.nodes.find((x) => x && x.counts && x.type === "N") || period.nodes.find((x) => x && x.counts) || null; }

// m by the scenario, or by the slots of a trace, or as the user gave it, or null
function rounds() { return state.plan ? state.plan.m : state.run.slots ? Math.max(0, Math.ceil((state.run.slots - 4) / 2)) : state.given; }

// what the bound weighs, null where m isn't known
function load(p) { return rounds() === null ? null : 2 * p.a + 2 * p.s + p.b + rounds(); }

// how far the bound is kept: from 1 on it is, if also a <= m; null where m isn't known
function margin(p) { return rounds() === null ? null : p.n - load(p); }

function reading(channel, p, i) {
  const part = state.plan && (state.plan.channels || [])[channel];
  return part && part.readings && part.readings.length ? part.readings[p.number % part.readings.length][i] : null;
}

// what the nonfaulty nodes read of a channel in a period: the least and the greatest
function span(channel, p) {
  const values = p.nodes.filter((x) => x && x.type === "N").map((x) => reading(channel, p, x.id)).filter((v) => v !== null && v !== undefined);
  return values.length ? [Math.min(...values), Math.max(...values)] : null;
}

function votesOf(channel, p) { return p.nodes.filter((x) => x && x.votes && x.votes.has(channel) && x.votes.get(channel) !== null && "NJ-".includes(x.type)).map((x) => x.votes.get(channel)); }

// how far the sound clocks are apart at most after a claimed period, where the scenario tells of clocks: what the starts are
// apart beyond 4 epsilon + 2 drift is halved in each period, rounded up
function skewBound(p) {
  const clock = state.plan && state.plan.clock;
  if (!p.claim || !clock || !Array.isArray(clock.start)) return null;
  const settled = 4 * clock.epsilon + 2 * clock.drift, apart = Math.max(...clock.start) - Math.min(...clock.start);
  const bound = Math.ceil(Math.max(0, apart - settled) / 2 ** Math.min(p.number + 1, 64)) + settled;
  return Number.isFinite(bound) ? bound : null;
}

function channelsOf(run) { let most = -1; for (const p of run.periods) for (const x of p.nodes) if (x && x.votes) for (const c of x.votes.keys()) most = Math.max(most, c); return most + 1; }


function lostAt(run) { return run.periods.findIndex((p) => p.members && !p.claim); }

// ---- whether a scenario is that of a text: the sentence of what differs, or an empty one

function differs(plan, run) {
  const clocks = run.periods.some((p) => p.clock), left = run.periods.some((p) => p.nodes.some((x) => x && x.left));
  const most = channelsOf(run), m = run.slots ? Math.max(0, Math.ceil((run.slots - 4) / 2)) : plan.m;
  if (plan.nodes !== run.nodes && run.nodes) return "it has " + plan.nodes + " nodes, and the text " + run.nodes;
  if (plan.periods !== run.periods.length) return "it has " + plan.periods + " periods, and the text " + run.periods.length;
  if (plan.m !== m) return "its m is " + plan.m + ", and by its slots the text's is " + m;
  if (clocks && !plan.clock) return "it has no clock, and the text has";
  if (left && !plan.policy.retire) return "its nodes don't retire, and those of the text do";
  if (most > (plan.channels || []).length) return "it has " + (plan.channels || []).length + " channels, and the text " + most;
  return "";
}

// ---- what happens, in the order of periods

function listed(items) { return items.length < 2 ? items.join("") : items.slice(0, -1).join(", ") + " and " + items[items.length - 1]; }

function named(nodes) { return (nodes.length === 1 ? "node " : "nodes ") + listed(nodes); }

function kinds(mask) { const out = []; for (let k = 0; k < 16; k++) if (mask >> k & 1) out.push(KINDS[k] || "kind " + k); return out.join(", "); }

// of which kinds more than half of the settled rows of the others accuse each node, by the rows that a node settles
function charges(node) {
  const rows = node.rows.filter(([, rest]) => rest !== "E").map(([q, rest]) => [q, list(rest)]);
  return node.counts.map((_, j) => {
    const voters = rows.filter(([q]) => q !== j).map(([, row]) => row[j] || 0);
    let mask = 0;
    for (let k = 0; k < 16; k++) if (2 * voters.filter((it) => it >> k & 1).length > voters.length) mask |= 1 << k;
    return mask;
  });
}

// who convicts a node of telling different things: the nodes in whose own rows it stands
function convictors(p, j) {
  return p.nodes.filter((x) => x && x.rows && "NJ-".includes(x.type) && x.rows.some(([q, rest]) => q === x.id && rest !== "E" && list(rest)[j] >> 8 & 1)).map((x) => x.id);
}

// changes of class in a period
function turns(p, before) {
  const out = [];
  for (const x of p.nodes) {
    const old = x && before && before.nodes[x.id];
    if (!x || (old ? old.type : "N") === x.type || x.type === "-") continue;
    out.push({ period: p.number, node: x.id, words: "node " + x.id + " is " + CLASSES[x.type][0] + (x.type === "N" ? " again" : "") });
  }
  return out;
}

// who leaves and who joins at the end of a period
function moves(p, members, after) {
  const out = [];
  for (const j of members) if (!after.includes(j)) out.push({ period: p.number, node: j, words: "node " + j + " leaves" });
  for (const j of after) if (!members.includes(j)) out.push({ period: p.number, node: j, words: "node " + j + " joins" });
  return out;
}

// faults, charges, convictions, who leaves and joins, and the lost claim
function eventsOf(run) {
  const out = [], lost = lostAt(run);
  let members = null;
  run.periods.forEach((p, k) => {
    if (k === lost) out.push({ period: k, node: 0, words: "the claim is lost" });
    out.push(...turns(p, run.periods[k - 1]));
    const told = teller(p);
    if (!told) { members = p.members && p.members.length ? p.members : members; return; }
    charges(told).forEach((mask, j) => { if (mask) out.push({ period: k, node: j, words: "node " + j + " is charged with " + kinds(mask) }); });
    told.counts.forEach((_, j) => { const by = convictors(p, j); if (by.length) out.push({ period: k, node: j, words: named(by) + (by.length === 1 ? " convicts" : " convict") + " node " + j }); });
    out.push(...moves(p, p.members && p.members.length ? p.members : members || told.members, told.members));
    members = told.members;
  });
  return out;
}

// the next thing that happens behind a period, or before it by a step of -1; null where there is none
function eventBeside(events, period, step) {
  const there = events.filter((it) => step > 0 ? it.period > period : it.period < period);
  return there.length ? (step > 0 ? there[0] : there[there.length - 1]) : null;
}

// ---- who said two things, by the frames of a trace

const FRAME_NAMES = { 1: "state", 2: "claim", 3: "relays of claims", 4: "values", 5: "row", 6: "relays of rows", 7: "cold" };

function slotName(slot, m) { return slot === 0 ? "state" : slot === 1 ? "claim" : slot <= m + 1 ? "relays of claims" : slot === m + 2 ? "values" : slot === m + 3 ? "row" : "relays of rows"; }

function bytes(hex, at, count) { return parseInt(hex.substr(2 * at, 2 * count), 16); }

function rowWords(hex, at, nodes) {
  const told = [];
  for (let j = 0; j < nodes; j++) { const mask = bytes(hex, at + 2 * j, 2); if (mask) told.push("node " + j + " of " + kinds(mask)); }
  return told.length ? "accuses " + told.join("; ") : "accuses nobody";
}

function claimWords(byte) { return byte === 255 ? "claims nothing" : "claims task " + byte; }

// the paths of so many distinct members, in their order
function pathsOf(members, length) {
  if (length === 0) return [[]];
  return members.flatMap((first) => pathsOf(members.filter((j) => j !== first), length - 1).map((rest) => [first, ...rest]));
}

// the entries of a relay frame that differ from those of another form of it
function entryWords(hex, other, run, members, sender, isClaim) {
  const size = isClaim ? 2 : 1 + 2 * run.nodes, length = hex.length / 2 - 14, count = length / size, free = members.filter((j) => j !== sender);
  let round = 1, paths = free.length;
  while (paths < count && round < 3) { paths *= free.length - round; round += 1; }
  if (!other) return "its entries";
  if (hex.length !== other.length || count !== paths) return "entries that aren't as many";
  const names = pathsOf(free, round), told = [];
  for (let k = 0; k < count; k++) {
    const at = 14 + size * k;
    if (hex.substr(2 * at, 2 * size) === other.substr(2 * at, 2 * size)) continue;
    told.push("of path " + names[k].join(" > ") + ": " + (bytes(hex, at, 1) ? "an error" : isClaim ? claimWords(bytes(hex, at + 1, 1)) : rowWords(hex, at + 1, run.nodes)));
  }
  return told.slice(0, 2).join(", ") + (told.length > 2 ? " and " + (told.length - 2) + " more" : "");
}

// one form of a frame in words, beside another form of it
function formWords(form, other, run, p, sender) {
  if (form === "") return "nothing";
  const [tick, hex, more] = form.split(" "), kind = hex.length >= 28 && hex.startsWith("4d46") ? bytes(hex, 3, 1) : 0;
  const late = (tick < 10 || tick > 20 ? " at tick " + tick : "") + (more ? ", twice" : "");
  const due = [...new Set(p.nodes.flatMap((x) => x && x.votes ? [...x.votes.keys()] : []))].sort((a, b) => a - b);
  const members = p.members && p.members.length ? p.members : (teller(p) || { members: [] }).members;
  if (kind && hex.length !== 28 + 2 * bytes(hex, 10, 4)) return "a frame that is cut" + late;
  if (kind === 1) return "a state with the counts " + [...Array(run.nodes).keys()].map((j) => bytes(hex, 16 + 2 * j, 2)).join(", ") + late;
  if (kind === 2) return claimWords(bytes(hex, 14, 1)) + late;
  if (kind === 4) return due.slice(0, (hex.length / 2 - 14) / 8).map((c, k) => "channel " + c + " is " + BigInt.asIntN(64, BigInt("0x" + hex.substr(28 + 16 * k, 16)))).join(", ") + late;
  if (kind === 5) return rowWords(hex, 14, run.nodes) + late;
  if (kind === 3 || kind === 6) return entryWords(hex, other.split(" ")[1] || "", run, members, sender, kind === 3) + late;
  return kind === 7 ? "that it is cold" + late : "bytes that are no frame" + late;
}

// each node that sent different things to different nodes in a slot of a period, in words
function saidTwice(run, p) {
  if (!p.frames) return [];
  const sent = new Map(), m = Math.max(0, Math.ceil((run.slots - 4) / 2)), out = [];
  for (let k = p.frames[0]; k <= p.frames[1]; k++) {
    const [, , slot, from, to, tick, hex] = run.lines[k].split(" "), key = slot + " " + from;
    if (!sent.has(key)) sent.set(key, Array(run.nodes).fill(""));
    const told = sent.get(key);
    told[+to] = told[+to] ? told[+to] + " twice" : tick + " " + hex;
  }
  for (const [key, told] of sent) {
    const [slot, from] = key.split(" ").map(Number), forms = new Map();
    told.forEach((form, to) => { if (to !== from) forms.set(form, [...(forms.get(form) || []), to]); });
    if (forms.size < 2) continue;
    const all = [...forms.keys()], words = all.map((form, k) => formWords(form, all[k ? 0 : 1], run, p, from) + " to " + named(forms.get(form)));
    out.push("Node " + from + " said " + forms.size + " things in slot " + slot + " (" + slotName(slot, m) + "): " + words.join("; ") + ".");
  }
  return out;
}
