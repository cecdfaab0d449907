// ---- words; whatever a text says gets into the page as text alone

function make(tag, content, properties) {
  const out = Object.assign(document.createElement(tag), properties || {});
  for (const part of [].concat(content === undefined ? [] : content)) out.append(part);
  return out;
}

function set(xs) { return xs.length ? xs.join(", ") : "nobody"; }

function accusations(node) {
  const out = [];
  for (const [q, rest] of node.rows) {
    if (rest === "E") { out.push("The row of node " + q + " is settled as an error."); continue; }
    const told = list(rest).map((mask, j) => mask ? "node " + j + " (" + kinds(mask) + ")" : "").filter(Boolean);
    if (told.length) out.push("Node " + q + " accuses " + told.join("; ") + ".");
  }
  return out.length ? out : ["Nobody is accused."];
}

function claims(node) {
  const out = [];
  for (const [q, rest] of node.done) {
    if (rest === "E") out.push("What node " + q + " claims is settled as an error.");
    else if (rest !== "-") out.push("Node " + q + " claims task " + rest + ".");
  }
  return out.length ? out : ["Nobody claims a task."];
}

function table(caption, head, rows) {
  return make("table", [make("caption", caption), make("tr", head.map((h) => make("th", String(h)))), ...rows.map((row) => make("tr", row.map((d, j) => make(j ? "td" : "th", String(d)))))]);
}

// who accuses whom, as this node settles it
function accused(node) {
  return table("Who accuses whom", ["row of", ...node.counts.map((_, j) => "node " + j)], node.rows.map(([q, rest]) => ["node " + q, ...(rest === "E" ? node.counts.map(() => "error") : list(rest).map((mask) => kinds(mask)))]));
}

function balance(p) {
  const m = rounds(), weight = 2 * p.a + 2 * p.s + p.b;
  if (m === null) return " Of the bound n > 2a + 2s + b + m the left side is " + p.n + ", and the right one " + weight + " + m; the margin is ?, since this text doesn't tell m: give m above, or drop the scenario too.";
  const left = margin(p);
  return " The bound: " + p.n + " > " + weight + " + " + m + " (m), " + (left > 0 ? "with a margin of " + left : "which fails by " + (1 - left)) + "; asymmetric members " + p.a + (p.a <= m ? " <= " : " > ") + m + ".";
}

function votes(p, node) {
  const rows = [...node.votes].map(([c, vote]) => {
    const part = state.plan && (state.plan.channels || [])[c], read = span(c, p), others = votesOf(c, p);
    return ["channel " + c, vote === null ? "none" : vote, others.length ? Math.min(...others) + " to " + Math.max(...others) : "", read ? read[0] + " to " + read[1] : "", part ? part.delta : ""];
  });
  return rows.length ? table("Votes", ["", "this node's vote", "votes of sound nodes", "readings of nonfaulty nodes", "delta"], rows) : make("p", "Votes: no channel is due.");
}

function states(node) {
  const policy = state.plan && state.plan.policy;
  return table("What it holds" + (policy ? "; a member leaves at " + policy.exclude + " and comes back at " + policy.readmit : ""), ["node", ...node.counts.map((_, j) => j)],
    [["penalty count", ...node.counts], ["streak", ...node.streaks], ["runs task", ...node.run], ...(node.left ? [["left", ...node.left]] : [])]);
}

function words() {
  const run = state.run, p = run.periods[state.period], node = p.nodes[state.node], parts = [make("h2", "Period " + p.number + ", node " + state.node)];
  const happens = state.events.filter((it) => it.period === p.number).map((it) => it.words);
  if (happens.length) parts.push(make("p", "In this period: " + happens.join("; ") + "."));
  if (p.frames) parts.push(...twoThings(run, p));
  if (p.members) {
    parts.push(make("p", ["Members before the period: " + set(p.members) + ". Of these " + p.n + " members " + p.a + " are asymmetric, " + p.s + " symmetric, " + p.b + " benign or joining; the fault bound ",
      make("span", p.budget ? "is kept" : "is not kept", { className: p.budget ? "" : "bad" }), ", and the period ", make("span", p.claim ? "is claimed" : "is not claimed", { className: p.claim ? "" : "bad" }), "." + balance(p)]));
  }
  if (p.clock) parts.push(make("p", "Clocks: " + (p.clock.skew === null ? "no node is sound" : "the sound ones are at most " + p.clock.skew + " apart") + "; offsets after the period " + p.clock.offsets.join(", ") + "." + (skewBound(p) === null ? "" : " The bound of the skew is " + skewBound(p) + ".")));
  const type = node && (CLASSES[node.type] || CLASSES["-"])[0];
  if (!node) parts.push(make("p", "The text has no lines of this node in this period.", { className: "soft" }));
  else if (node.mode === "cold") parts.push(make("p", "The node is " + type + " and cold: it has no agreed state."));
  else {
    parts.push(make("p", "The node is " + type + " and " + node.mode + ". After the period it holds these members: " + set(node.members) + "."), make("p", claims(node).join(" ")), make("p", accusations(node).join(" ")));
    parts.push(accused(node), votes(p, node), states(node));
  }
  if (node) parts.push(make("h2", "The lines"), make("pre", run.lines.slice(node.at, node.at + node.size).join("\n")));
  if (p.frames) parts.push(...frames(run, p));
  $("words").replaceChildren(...parts);
}

// who said two things, by the frames of the period
function twoThings(run, p) {
  const told = saidTwice(run, p);
  return told.length ? told.slice(0, 60).map((words) => make("p", words, { className: "two" })) : [make("p", "In this period each node sent the same to all others.", { className: "soft" })];
}

function frames(run, p) {
  const mine = run.lines.slice(p.frames[0], p.frames[1] + 1).filter((l) => { const w = l.split(" "); return +w[3] === state.node || +w[4] === state.node; });
  return [make("h2", "Frames from and to this node (" + mine.length + ")"), make("pre", mine.slice(0, 400).map((l) => l.length > 160 ? l.slice(0, 160) + " .." : l).join("\n") + (mine.length > 400 ? "\n.." : ""))];
}

function keys() {
  const box = (letter, colour, dashed) => { const out = make("span", letter, { className: dashed ? "box dashed" : "box" }); out.style.background = colour; return out; };
  const key = (...parts) => make("span", parts, { className: "key" });
  $("keys").replaceChildren(...Object.entries(CLASSES).map(([c, [name, colour]]) => key(box(c === "N" ? "" : c, colour), name)), key(box("", COLOURS.paper, true), "no member"),
    key("dark bar in a cell: penalty count, with the lines of exclude (red) and readmit (blue)"), key("blue corner: joining or cold"), key("bound: members (light) against 2a + 2s + b + m (dark), and the margin"), key("red line: the claim is lost"),
    key("votes (blue) against what nonfaulty nodes read (grey)"),
    key("clock skew (blue) below its bound in claimed periods (dark line), both by their logarithms"));
}

// ---- doing

function clear() {
  state.run = null; state.plan = null; state.given = null; state.events = []; state.names = { text: "", plan: "" }; window.shown = null;
  for (const sheet of [canvas, $("labels")]) { sheet.width = sheet.height = 0; sheet.style.width = sheet.style.height = "0"; }
  $("words").replaceChildren(); $("told").textContent = ""; $("pair").textContent = "";
  for (const button of ["lost", "next", "last", "fit", "wider", "narrower"]) $(button).disabled = true;
  $("ask").hidden = $("keep").hidden = true;
  pick();
}

function isPlan(text) { return /^\uFEFF?\s*\{/.test(text); }

// the scenario becomes that of the text which is drawn, if it may be
function pair(plan, name) {
  const why = differs(plan, state.run);
  if (why) throw new Error("The scenario " + name + " isn't that of this text: " + why + ".");
  state.plan = plan; state.names.plan = name; state.offered = null;
}

// draws a text; a scenario that came before any text is its pair, and one of an earlier text is offered where it fits
function openText(file, hasPlan) {
  const old = state.plan ? { plan: state.plan, name: state.names.plan, waits: false } : state.offered;
  clear();
  state.run = read(file.text); state.names.text = file.name; state.events = eventsOf(state.run);
  state.period = 0; state.node = Math.max(0, state.run.periods[0].nodes.findIndex(Boolean)); state.width = cellWidth(state.run);
  state.offered = old && !hasPlan && !differs(old.plan, state.run) ? old : null;
  if (state.offered && state.offered.waits) pair(state.offered.plan, state.offered.name);
}

// what is drawn of which files, and what one can do
function report(took) {
  const run = state.run, lost = lostAt(run);
  $("lost").disabled = lost < 0;
  $("next").disabled = $("last").disabled = !state.events.length;
  for (const button of ["fit", "wider", "narrower"]) $(button).disabled = false;
  $("ask").hidden = rounds() !== null || !run.periods[0].members;
  $("keep").hidden = !state.offered;
  if (state.offered) $("keep").textContent = "The scenario " + state.offered.name + " fits too: keep it";
  window.shown = { periods: run.periods.length, nodes: run.nodes, milliseconds: took };
  $("pair").textContent = "Text: " + state.names.text + ". Scenario: " + (state.plan ? state.names.plan : "none") + ".";
  $("told").textContent = run.periods.length + " periods of " + run.nodes + " nodes, drawn in " + took.toFixed(0) + " ms; " + (lost < 0 ? "the claim is never lost" : "the claim is lost in period " + lost) + (state.plan ? "" : "; drop the scenario too for m, policy and readings");
}

// scenarios before the texts, so that they are drawn as pairs; each has a name and a text, and an error where it couldn't be read
function showAll(files) {
  const began = performance.now();
  $("problem").textContent = "";
  try {
    for (const file of files) if (file.error) throw new Error(file.name + " can't be read: " + file.error);
    const plans = files.filter((file) => isPlan(file.text)), texts = files.filter((file) => !isPlan(file.text));
    for (const file of texts) openText(file, plans.length > 0);
    for (const file of plans) if (state.run) pair(readPlan(file.text), file.name); else state.offered = { plan: readPlan(file.text), name: file.name, waits: true };
    if (!state.run) { $("told").textContent = "The scenario " + state.offered.name + " is read; now its text."; return; }
    draw(); words();
  } catch (e) { clear(); state.offered = null; $("problem").textContent = e.message; return; }
  report(performance.now() - began);
}

function show(text) { showAll([{ name: "pasted", text }]); }

// reads files that were dropped or chosen; one that can't be read is told of
async function readAll(files) {
  showAll(await Promise.all(files.map((file) => file.text().then((text) => ({ name: file.name, text }), (error) => ({ name: file.name, text: "", error: error.message || String(error) })))));
}

// goes to a place, and tells of it
function go(period, node) {
  if (!state.run) return;
  state.period = Math.max(0, Math.min(state.run.periods.length - 1, period));
  state.node = Math.max(0, Math.min(state.run.nodes - 1, node));
  pick(); words();
  const x = state.width * state.period;
  if (x < plot.scrollLeft || x > plot.scrollLeft + plot.clientWidth - SIDE - 40) plot.scrollLeft = x - plot.clientWidth / 2;
}

function move(dp, dn) { go(state.period + dp, state.node + dn); }

function goLost() { if (state.run && lostAt(state.run) >= 0) go(lostAt(state.run), state.node); }

// the period behind this one, or before it, in which something happens, and what
function goEvent(step) {
  const found = state.run && eventBeside(state.events, state.period, step);
  if (!found) { $("told").textContent = "Nothing happens " + (step > 0 ? "behind" : "before") + " this period."; return; }
  go(found.period, found.node);
  $("told").textContent = "Period " + found.period + ": " + found.words + ".";
}

// another width of the columns; the place that is told of stays in sight
function zoom(width) { if (!state.run) return; state.width = width; draw(); go(state.period, state.node); }

function zoomBy(step) { zoom(beside(state.width, step)); }

function fit() { if (state.run) zoom(fitWidth(state.run, plot.clientWidth)); }

// m as the user gives it, where neither text nor scenario tells
function giveRounds() {
  const m = Number($("m").value);
  state.given = $("m").value !== "" && Number.isInteger(m) && m >= 0 && m <= 3 ? m : null;
  if (state.run) { draw(); words(); }
}

// the scenario of an earlier text, which the user takes for this one too
function keepPlan() {
  const offered = state.offered;
  if (!state.run || !offered) return;
  pair(offered.plan, offered.name);
  draw(); words(); report(0);
}

canvas.addEventListener("click", (e) => {
  const box = canvas.getBoundingClientRect();
  if (state.run) go(Math.floor((e.clientX - box.left) / state.width), Math.floor((e.clientY - box.top - HEAD) / ROW));
});
const KEYS = { l: goLost, n: () => goEvent(1), p: () => goEvent(-1), f: fit, "+": () => zoomBy(1), "-": () => zoomBy(-1) };
plot.addEventListener("keydown", (e) => {
  if (e.ctrlKey || e.metaKey || e.altKey) return;
  const step = { ArrowLeft: [-1, 0], ArrowRight: [1, 0], ArrowUp: [0, -1], ArrowDown: [0, 1], PageDown: [16, 0], PageUp: [-16, 0], Home: [-1e9, 0], End: [1e9, 0] }[e.key];
  if (step) { move(step[0], step[1]); e.preventDefault(); }
  const act = KEYS[e.key.toLowerCase()];
  if (act) act();
});
$("draw").addEventListener("click", () => show($("text").value));
for (const [button, act] of [["lost", goLost], ["next", KEYS.n], ["last", KEYS.p], ["fit", fit], ["wider", KEYS["+"]], ["narrower", KEYS["-"]], ["keep", keepPlan]]) $(button).addEventListener("click", act);
$("m").addEventListener("input", giveRounds);
$("text").addEventListener("paste", () => setTimeout(() => show($("text").value), 0));
$("file").addEventListener("change", (e) => readAll([...e.target.files]));
for (const n of ["dragover", "dragenter"]) document.addEventListener(n, (e) => { e.preventDefault(); document.body.classList.add("over"); });
document.addEventListener("dragleave", () => document.body.classList.remove("over"));
document.addEventListener("drop", (e) => {
  e.preventDefault(); document.body.classList.remove("over");
  const files = [...e.dataTransfer.files], text = e.dataTransfer.getData("text");
  if (files.length) readAll(files); else if (text) show(text);
});
keys();
