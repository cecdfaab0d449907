// ---- drawing

const HEAD = 58, ROW = 34, SIDE = 84, FOOT = 20, LANE = 16, VOTE = 46, SKEW = 48;
const COLOURS = { ink: "#1b1b1b", soft: "#555555", paper: "#ffffff", kept: "#2f7d32", bad: "#a00000", members: "#e2e2e2", load: "#7a5c00", count: "#3a3a3a", line: "#767676", blue: "#0a5bd3", band: "#cfcfcf" };
// what must be told apart, and by how much: text by 4.5, marks by 3
const CONTRASTS = [["ink", "paper", 4.5], ["soft", "paper", 4.5], ["bad", "paper", 4.5], ["kept", "paper", 3], ["members", "load", 3], ["members", "bad", 3], ["count", "paper", 3], ["line", "paper", 3], ["blue", "paper", 3], ["blue", "band", 3]];
const $ = (id) => document.getElementById(id);
const canvas = $("canvas"), plot = $("plot");

// the widths of a column that one can zoom to
const WIDTHS = [2, 3, 4, 6, 8, 10, 12, 14, 18, 24, 32, 44, 64];

function cellWidth(run) { return run.periods.length <= 16 ? 44 : run.periods.length > 120 ? 14 : 24; }

// the greatest width at which all periods are seen, and else the least there is
function fitWidth(run, room) { return WIDTHS.filter((w) => w * run.periods.length + 8 + SIDE <= room).pop() || WIDTHS[0]; }

function beside(width, step) { return WIDTHS[Math.max(0, Math.min(WIDTHS.length - 1, (step > 0 ? WIDTHS.findIndex((w) => w >= width) : WIDTHS.filter((w) => w <= width).length - 1) + step))]; }

function layout(run) {
  const at = { tasks: HEAD + ROW * run.nodes + FOOT };
  at.lanes = run.periods.some((p) => p.nodes.some((x) => x && x.run && x.run.some((t) => t !== "-"))) ? run.nodes : 0;
  at.votes = at.tasks + (at.lanes ? at.lanes * LANE + 8 : 0);
  at.channels = channelsOf(run);
  at.skew = at.votes + at.channels * (VOTE + 6);
  at.height = at.skew + (run.periods.some((p) => p.clock) ? SKEW + 6 : 0) + 4;
  return at;
}

function open2d(sheet, width, height) {
  const ratio = window.devicePixelRatio || 1, scale = width * ratio > 16000 ? 1 : ratio;
  sheet.width = width * scale; sheet.height = height * scale; sheet.style.width = width + "px"; sheet.style.height = height + "px";
  const g = sheet.getContext("2d");
  g.scale(scale, scale); g.fillStyle = COLOURS.paper; g.fillRect(0, 0, width, height);
  g.font = "12px system-ui, sans-serif"; g.textBaseline = "middle"; g.textAlign = "left"; g.fillStyle = COLOURS.ink;
  return g;
}

function draw() {
  const run = state.run, w = state.width, at = state.at = layout(run);
  const g = open2d(canvas, w * run.periods.length + 8, at.height);
  run.periods.forEach((p, k) => column(g, run, p, k, w));
  if (at.lanes) run.periods.forEach((p, k) => lanes(g, p, k, w));
  for (let c = 0; c < at.channels; c++) voteLane(g, run, c, w);
  if (run.periods.some((p) => p.clock)) skewLane(g, run, w);
  labels(run, at);
  pick();
}

// the names of the rows stay in sight while one scrolls
function labels(run, at) {
  const g = open2d($("labels"), SIDE, at.height);
  g.fillText("claim", 6, 12); g.fillText("bound", 6, 38);
  for (let i = 0; i < run.nodes; i++) g.fillText("node " + i, 6, HEAD + ROW * i + ROW / 2);
  g.fillText("period", 6, HEAD + ROW * run.nodes + 10);
  for (let i = 0; i < at.lanes; i++) g.fillText("runs on " + i, 6, at.tasks + LANE * i + LANE / 2);
  for (let c = 0; c < at.channels; c++) { const part = state.plan && (state.plan.channels || [])[c]; g.fillText((part ? part.kind + " " : "votes ") + c, 6, at.votes + (VOTE + 6) * c + 16); if (part) { g.fillStyle = COLOURS.soft; g.fillText("delta " + part.delta, 6, at.votes + (VOTE + 6) * c + 32); g.fillStyle = COLOURS.ink; } }
  if (run.periods.some((p) => p.clock)) g.fillText("clock skew", 6, at.skew + SKEW / 2);
}

function column(g, run, p, k, w) {
  const x = w * k;
  if (p.members) {
    g.fillStyle = p.claim ? COLOURS.kept : COLOURS.paper; g.fillRect(x, 4, w - 1, 16);
    g.strokeStyle = p.claim ? COLOURS.kept : COLOURS.bad; g.lineWidth = 1; g.strokeRect(x + .5, 4.5, w - 2, 15);
    if (!p.claim) { g.beginPath(); g.moveTo(x, 4); g.lineTo(x + w - 1, 20); g.stroke(); }
    if (k === lostAt(run)) { g.fillStyle = COLOURS.bad; g.fillRect(x - 1, 0, 2, HEAD + ROW * run.nodes); }
    // members against what the bound weighs: where the dark bar reaches the light one, the bound is lost
    const top = Math.max(run.nodes, 1), need = Math.min(load(p) || 0, top);
    g.fillStyle = COLOURS.members; g.fillRect(x, 52 - 28 * p.n / top, w - 1, 28 * p.n / top);
    g.fillStyle = p.budget ? COLOURS.load : COLOURS.bad; g.fillRect(x, 52 - 28 * need / top, Math.ceil((w - 1) / 2), 28 * need / top);
    if (w >= 24) { g.fillStyle = COLOURS.ink; g.textAlign = "right"; g.fillText(margin(p) === null ? "?" : String(margin(p)), x + w - 3, 44); g.textAlign = "left"; }
  }
  const told = teller(p);
  for (let i = 0; i < run.nodes; i++) cell(g, run, p, i, x, w, told);
  const every = w >= 44 ? 1 : w >= 24 ? 5 : w >= 6 ? 10 : 50;
  if (p.number % every === 0) { g.fillStyle = COLOURS.soft; g.fillText(String(p.number), x + 2, HEAD + ROW * run.nodes + 10); }
}

function cell(g, run, p, i, x, w, told) {
  const y = HEAD + ROW * i, node = p.nodes[i];
  const member = p.members ? p.members.includes(i) : told ? told.members.includes(i) : false;
  g.fillStyle = node ? (CLASSES[node.type] || CLASSES["-"])[1] : "#f3f3f3";
  g.fillRect(x, y + 1, w < 4 ? w : w - 1, ROW - 3);
  if (w < 4) { if (told && told.counts[i]) { g.fillStyle = COLOURS.count; g.fillRect(x, y + ROW - 6, w, 3); } return; }
  g.strokeStyle = member ? COLOURS.ink : COLOURS.line; g.lineWidth = member ? 1.2 : 1;
  if (!member) g.setLineDash([2, 2]);
  g.strokeRect(x + .5, y + 1.5, w - 2, ROW - 4);
  g.setLineDash([]);
  if (told) countBar(g, run, told, i, x + Math.max(1, w - 6), y + ROW - 4, w);
  if (!node) return;
  if (node.mode === "cold") { g.strokeStyle = COLOURS.ink; g.lineWidth = 1; g.beginPath(); g.moveTo(x + 1, y + ROW - 3); g.lineTo(x + w - 2, y + 2); g.stroke(); }
  if (node.mode !== "full") { g.fillStyle = COLOURS.blue; g.beginPath(); g.moveTo(x, y + 1); g.lineTo(x + Math.min(9, w - 1), y + 1); g.lineTo(x, y + 10); g.fill(); }
  if (node.type !== "N" && w >= 12) {
    g.fillStyle = COLOURS.ink; g.font = "bold 12px ui-monospace, monospace"; g.textAlign = "center";
    g.fillText(node.type, x + (w - 6) / 2, y + ROW / 2); g.font = "12px system-ui, sans-serif"; g.textAlign = "left";
  }
}

// a penalty count, with the lines at which a node leaves and comes back where the scenario tells them
function countBar(g, run, told, i, x, foot, w) {
  const policy = state.plan && state.plan.policy, most = Math.max(run.most, policy ? policy.exclude : 1), unit = (ROW - 8) / most;
  if (told.counts[i]) { const h = Math.max(2, unit * told.counts[i]); g.fillStyle = COLOURS.count; g.fillRect(x, foot - h, 4, h); }
  if (!policy || w < 14) return;
  g.fillStyle = COLOURS.bad; g.fillRect(x - 3, foot - Math.round(unit * policy.exclude), 8, 1);
  g.fillStyle = COLOURS.blue; g.fillRect(x - 3, foot - Math.round(unit * policy.readmit) - 1, 8, 1);
}

// which task each node runs after a period
function lanes(g, p, k, w) {
  const told = teller(p);
  if (!told) return;
  told.run.forEach((task, i) => {
    if (task === "-") return;
    const y = state.at.tasks + LANE * i;
    g.fillStyle = "#dbe7fb"; g.fillRect(w * k, y + 1, w - 1, LANE - 2);
    if (w >= 12) { g.fillStyle = COLOURS.ink; g.fillText(task, w * k + 3, y + LANE / 2); }
  });
}

// the votes of one channel over time, against what the nonfaulty nodes read
function voteLane(g, run, c, w) {
  const y = state.at.votes + (VOTE + 6) * c, all = [];
  for (const p of run.periods) { all.push(...votesOf(c, p)); const read = span(c, p); if (read) all.push(...read); }
  const least = all.length ? all.reduce((m, v) => Math.min(m, v)) : 0, greatest = all.length ? all.reduce((m, v) => Math.max(m, v)) : 1, unit = (VOTE - 8) / Math.max(1, greatest - least);
  const place = (v) => Math.round(y + VOTE - 4 - (v - least) * unit);
  g.strokeStyle = COLOURS.line; g.lineWidth = 1; g.strokeRect(.5, y + .5, w * run.periods.length, VOTE - 1);
  run.periods.forEach((p, k) => {
    const read = span(c, p), votes = votesOf(c, p);
    if (read) { g.fillStyle = COLOURS.band; g.fillRect(w * k + 1, place(read[1]) - 2, w - 3, place(read[0]) - place(read[1]) + 4); }
    if (!votes.length) return;
    const low = Math.min(...votes), high = Math.max(...votes);
    g.fillStyle = COLOURS.blue; g.fillRect(w * k + Math.floor(w / 2) - 2, place(high) - 1, 4, place(low) - place(high) + 3);
  });
}

// the skew of the clocks over time, and its bound, by their logarithms: so a bound that is halved falls by equal steps
function skewLane(g, run, w) {
  const clocked = run.periods.filter((p) => p.clock), most = clocked.reduce((m, p) => Math.max(m, p.clock.skew || 0, skewBound(p) || 0), 1);
  const height = (v) => Math.round((SKEW - 18) * Math.log2(1 + v) / Math.log2(1 + most)), y = state.at.skew;
  run.periods.forEach((p, k) => {
    if (!p.clock) return;
    const h = height(p.clock.skew || 0), bound = skewBound(p);
    g.fillStyle = COLOURS.blue; g.fillRect(w * k + 1, y + SKEW - h, w - 3, h);
    g.fillStyle = COLOURS.ink;
    if (bound !== null) g.fillRect(w * k, y + SKEW - height(bound) - 3, w - 1, 2);
    if (w >= 24) g.fillText(p.clock.skew === null ? "-" : String(p.clock.skew), w * k + 2, y + 7);
  });
}

// the frame around what the words tell of
function pick() {
  const box = $("pick"), w = state.width;
  box.hidden = !state.run;
  if (!state.run) return;
  box.style.left = SIDE + w * state.period + "px"; box.style.top = HEAD + ROW * state.node + "px"; box.style.width = w - 1 + "px"; box.style.height = ROW - 1 + "px";
}

