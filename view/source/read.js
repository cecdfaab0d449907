// ---- reading

const KINDS = ["missing", "malformed", "timing", "cold", "state", "claim", "overrun", "deviate", "equivocate"];
const CLASSES = {
  N: ["nonfaulty", "#ffffff"], J: ["joining", "#b8d8ff"], B: ["benign", "#ffe08a"],
  S: ["symmetric", "#ffab5e"], A: ["asymmetric", "#f08a8d"], "-": ["class not told", "#eeeeee"],
};
const NODES = 16;
const NUMBERS = "\\d+(?:,\\d+)*", SET = "(-|" + NUMBERS + ")", SIGNED = "-?\\d+(?:,-?\\d+)*";
const PERIOD = new RegExp("^period (\\d+) members " + SET + " n (\\d+) a (\\d+) s (\\d+) b (\\d+) budget (\\S+) claim (\\S+)$");
const NODE = new RegExp("^node (\\d+) ([NJBSA-]) (full|joining) members " + SET + " counts (" + NUMBERS + ") streaks (" + NUMBERS + ") run ([\\d-]+(?:,[\\d-]+)*)(?: left (" + NUMBERS + "))?$");
const COLD = /^node (\d+) ([NJBSA-]) cold$/;
const CLOCK = new RegExp("^clock skew (-|\\d+) offsets (" + SIGNED + ")$");
const FRAME = /^frame (\d+) (\d+) (\d+) (\d+) (\d+) (-|[0-9a-f]+)$/;
const DONE = /^ {2}done( \d+=(\d+|-|E))+$/;
const ROWS = new RegExp("^ {2}rows( \\d+=(" + NUMBERS + "|E))+$");
const VOTES = /^ {2}votes (-|\d+=(-?\d+|-)( \d+=(-?\d+|-))*)$/;

function list(text) { return text === "-" ? [] : text.split(",").map(Number); }

function fail(at, why) { throw new Error("Line " + (at + 1) + ": " + why); }

function truth(word, at) {
  if (word !== "yes" && word !== "no") fail(at, "budget and claim are yes or no, and this says '" + word.slice(0, 20) + "'.");
  return word === "yes";
}

function nodeNumber(word, at) {
  if (+word >= NODES) fail(at, "there is no node " + word + "; nodes are 0 to " + (NODES - 1) + ".");
  return +word;
}

function nodeSet(text, at) { return list(text).map((number) => nodeNumber(number, at)); }

// what is no text of a replay at all, in words
function refuseOther(lines) {
  const first = lines[0] || "";
  if (!first) throw new Error("There is no text.");
  const refused = first.match(/^refused (\d+) (\d+)$/);
  if (refused) throw new Error("The program refused the scenario by rule " + refused[1] + " at place " + refused[2] + "; there is nothing to draw.");
  if (first.startsWith("storm ")) throw new Error("This is the summary of a storm; it has no periods to draw. Draw a text of replay, check or node I.");
  if (!first.startsWith("period ")) fail(0, "this is no text of replay, check or node I: " + first.slice(0, 60));
}

// the items of a line of claims or rows, as pairs of a node and a text
function items(line, at) { return line.trim().split(" ").slice(1).map((item) => { const [q, rest] = item.split("="); return [nodeNumber(q, at), rest]; }); }

// the four lines of a node, or the one of a cold node
function readNode(lines, k) {
  const cold = lines[k].match(COLD);
  if (cold) return { id: nodeNumber(cold[1], k), type: cold[2], mode: "cold", at: k, size: 1 };
  const w = lines[k].match(NODE);
  if (!w) fail(k, "this is no line of a node: " + lines[k].slice(0, 60));
  const node = { id: nodeNumber(w[1], k), type: w[2], mode: w[3], members: nodeSet(w[4], k), counts: list(w[5]), streaks: list(w[6]), run: w[7].split(","), left: w[8] ? list(w[8]) : null, at: k, size: 4 };
  for (const numbers of [node.counts, node.streaks, node.run]) if (numbers.length !== node.counts.length || numbers.length > NODES) fail(k, "the node's lists are not of the same number of nodes.");
  [DONE, ROWS, VOTES].forEach((form, j) => { if (!form.test(lines[k + 1 + j] || "")) fail(k + 1 + j, "the lines of node " + node.id + " are cut or broken."); });
  node.done = items(lines[k + 1], k + 1); node.rows = items(lines[k + 2], k + 2);
  node.votes = new Map(lines[k + 3] === "  votes -" ? [] : lines[k + 3].slice(8).split(" ").map((item) => item.split("=")).map(([c, v]) => [+c, v === "-" ? null : +v]));
  return node;
}

function readPeriod(line, k) {
  const alone = line.match(/^period (\d+)$/), w = line.match(PERIOD);
  if (alone) return { number: +alone[1], members: null, nodes: [], frames: null, clock: null, at: k };
  if (!w) fail(k, "this is no line of a period: " + line.slice(0, 60));
  return { number: +w[1], members: nodeSet(w[2], k), n: +w[3], a: +w[4], s: +w[5], b: +w[6], budget: truth(w[7], k), claim: truth(w[8], k), nodes: [], frames: null, clock: null, at: k };
}

// the text as periods with nodes, clocks and frames; a byte order mark and carriage returns are passed over
function read(text) {
  const lines = text.replace(/^\uFEFF/, "").split(/\r?\n/);
  while (lines.length && lines[lines.length - 1] === "") lines.pop();
  refuseOther(lines);
  const run = { lines, periods: [], nodes: 0, most: 1, rounds: null };
  let period = null, ended = false;
  for (let k = 0; k < lines.length; k++) {
    const line = lines[k], word = line.split(" ", 1)[0];
    if (ended) fail(k, "there is more after the end line.");
    if (word === "period") { period = readPeriod(line, k); if (period.number !== run.periods.length) fail(k, "the text goes on with period " + period.number + " where period " + run.periods.length + " should come."); run.periods.push(period); }
    else if (word === "node") { const node = readNode(lines, k); period.nodes[node.id] = node; k += node.size - 1; if (node.counts) { run.nodes = Math.max(run.nodes, node.counts.length); run.most = Math.max(run.most, ...node.counts); } run.nodes = Math.max(run.nodes, node.id + 1); }
    else if (word === "clock") { const w = line.match(CLOCK); if (!w) fail(k, "this is no line of clocks: " + line.slice(0, 60)); period.clock = { skew: w[1] === "-" ? null : +w[1], offsets: list(w[2]), at: k }; }
    else if (word === "frame") { const w = line.match(FRAME); if (!w) fail(k, "this is no line of a frame: " + line.slice(0, 60)); period.frames = period.frames || [k, k]; period.frames[1] = k; run.slots = Math.max(run.slots || 0, +w[2] + 1); }
    else if (word === "end") { if (line !== "end " + run.periods.length) fail(k, "the text has " + run.periods.length + " periods, and says '" + line.slice(0, 40) + "': it is cut."); ended = true; }
    else fail(k, "this is no line of a replay: " + line.slice(0, 60));
  }
  if (!ended) throw new Error("The text is cut: its end line is missing after line " + lines.length + ".");
  for (const p of run.periods) if (p.members && p.members.length) run.nodes = Math.max(run.nodes, Math.max(...p.members) + 1);
  return run;
}

// the scenario tells what a text doesn't: relay rounds, policy, readings
function readPlan(text) {
  let plan;
  try { plan = JSON.parse(text.replace(/^\uFEFF/, "")); } catch (e) { throw new Error("This is no JSON text of a scenario: " + e.message); }
  if (plan && plan.scenario) plan = plan.scenario;
  if (!plan || !Number.isInteger(plan.nodes) || !Number.isInteger(plan.m) || !plan.policy) throw new Error("This JSON text is no scenario: it has no nodes, m and policy.");
  return plan;
}

