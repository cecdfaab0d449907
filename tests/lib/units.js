// Tries what the page's sources read and tell, without a browser: run by tests/page behind the sources and the object `given`.
"use strict";
const wrong = [];
let checked = 0;

function demand(holds, what) { checked += 1; if (!holds) wrong.push(what); }

function equal(got, wanted, what) { demand(JSON.stringify(got) === JSON.stringify(wanted), what + ": " + JSON.stringify(got) + ", not " + JSON.stringify(wanted)); }

function take(text, plan) { state.run = read(text); state.plan = plan || null; state.given = null; return state.run; }

function refuses(text, words) {
  let said = "nothing";
  try { read(text); } catch (e) { said = e.message; }
  demand(said.includes(words), "the text '" + text.slice(0, 30) + "' is refused with '" + said + "', not '" + words + "'");
}

// a period's line and a frame of version 1 by its kind and body
const HEAD_LINE = "period 0 members 0,1,2 n 3 a 0 s 0 b 0 budget yes claim yes\n";
function frameOf(kind, slot, body) { return "4d46010" + kind + "00000000" + "02" + "0" + slot + (body.length / 2).toString(16).padStart(8, "0") + body; }

// two forms of a frame of node 2 in a slot, one to node 0 and one to node 1, and what is told of them
function twice(slot, first, second, words) {
  const line = (to, hex) => hex === null ? "" : "frame 0 " + slot + " 2 " + to + " 15 " + hex + "\n";
  const votes = "node 0 N full members 0,1,2 counts 0,0,0 streaks 1,1,1 run -,-,-\n  done 0=- 1=- 2=-\n  rows 0=0,0,0 1=0,0,0 2=0,0,0\n  votes 0=5 3=7\n";
  const run = take(HEAD_LINE + votes + line(0, first) + line(1, second) + "frame 0 5 0 1 15 -\nframe 0 5 0 2 15 -\nend 1\n");
  equal(saidTwice(run, run.periods[0]), words ? [words] : [], "two forms in slot " + slot);
}

function tryMargins() {
  const run = take(given.blamed), p = run.periods[1];
  equal([rounds(), load(p), margin(p)], [null, null, null], "no m, no margin");
  state.given = 2; equal(margin(p), 1, "m as it is given");
  state.plan = given.plan; equal([rounds(), margin(p), margin(run.periods[0])], [1, 2, 4], "m by the scenario");
  const traced = take(given.traced); equal(rounds(), 1, "m by the slots"); equal(margin(traced.periods[1]), 2, "the margin of a trace");
  take(given.blamed, given.plan); equal(span(0, run.periods[2]), [100, 102], "what the nonfaulty nodes read");
}

function tryEvents() {
  const events = eventsOf(take(given.blamed)).map((it) => it.period + " " + it.words);
  equal(events, ["1 node 4 is asymmetric", "1 node 4 is charged with deviate", "2 node 4 is charged with deviate", "2 node 4 leaves", "3 node 4 is symmetric", "4 node 4 is joining",
    "4 node 4 is charged with cold", "5 node 4 is nonfaulty again", "5 node 4 is charged with cold", "8 node 4 joins"], "what happens");
  const convicted = eventsOf(take(given.convicted)).map((it) => it.words);
  demand(convicted.includes("nodes 0, 1, 2, 3, 4 and 5 convict node 6") && convicted.includes("node 6 is charged with equivocate"), "convictions: " + convicted);
  const lost = eventsOf(take(given.lost));
  demand(lost.some((it) => it.words === "the claim is lost" && it.period === 1), "the lost claim isn't among what happens");
  equal(eventBeside(lost, 0, 1).period, 1, "the next event"); equal(eventBeside(lost, 0, -1), null, "nothing is before the first period");
  equal(eventBeside(eventsOf(take(given.blamed)), 8, -1).period, 5, "the event before"); equal(eventsOf(take(HEAD_LINE + "end 1\n")), [], "a calm text");
}

function tryCharges() {
  const node = (rows) => ({ counts: [0, 0, 0, 0], rows });
  equal(charges(node([[0, "0,0,0,1"], [1, "0,0,0,1"], [2, "0,0,0,0"], [3, "0,0,0,0"]])), [0, 0, 0, 1], "two of three rows of others");
  equal(charges(node([[0, "0,0,0,1"], [1, "0,0,0,0"], [2, "E"], [3, "7,0,0,0"]])), [0, 0, 0, 0], "half of the rows is no charge");
  equal(charges(node([[0, "0,0,0,136"], [1, "0,0,0,8"], [2, "E"], [3, "E"]])), [0, 0, 0, 8], "each kind by itself");
}

function tryPairs() {
  const run = take(given.blamed), other = (changes) => differs({ ...given.plan, ...changes }, run);
  equal(differs(given.plan, run), "", "its own scenario");
  for (const [changes, words] of [[{ nodes: 4 }, "it has 4 nodes, and the text 5"], [{ periods: 9 }, "it has 9 periods, and the text 10"], [{ channels: [] }, "it has 0 channels, and the text 1"]]) equal(other(changes), words, "another scenario");
  equal(differs({ ...given.plan, m: 2 }, take(given.traced)), "its m is 2, and by its slots the text's is 1", "another m");
  equal(differs({ ...given.clockPlan, clock: undefined }, take(given.clocks)), "it has no clock, and the text has", "no clock");
}

function tryTwice() {
  const values = (a, b) => frameOf(4, 2, a + b), eight = (hex) => hex.padStart(16, "0");
  twice(2, values(eight("3e7"), eight("1")), values("fffffffffffffc19", eight("1")), "Node 2 said 2 things in slot 2 (relays of claims): channel 0 is 999, channel 3 is 1 to node 0; channel 0 is -999, channel 3 is 1 to node 1.");
  twice(1, frameOf(2, 1, "ff"), frameOf(2, 1, "03"), "Node 2 said 2 things in slot 1 (claim): claims nothing to node 0; claims task 3 to node 1.");
  twice(1, frameOf(2, 1, "ff"), null, "Node 2 said 2 things in slot 1 (claim): claims nothing to node 0; nothing to node 1.");
  twice(1, frameOf(2, 1, "ff"), "00ff", "Node 2 said 2 things in slot 1 (claim): claims nothing to node 0; bytes that are no frame to node 1.");
  twice(1, frameOf(2, 1, "ff"), frameOf(2, 1, "ff").slice(0, -2), "Node 2 said 2 things in slot 1 (claim): claims nothing to node 0; a frame that is cut to node 1.");
  twice(4, frameOf(5, 4, "000000800000"), frameOf(5, 4, "000000000101"), "Node 2 said 2 things in slot 4 (row): accuses node 1 of deviate to node 0; accuses node 2 of missing, equivocate to node 1.");
  twice(2, frameOf(3, 2, "00ff00ff"), frameOf(3, 2, "00ff0002"), "Node 2 said 2 things in slot 2 (relays of claims): of path 1: claims nothing to node 0; of path 1: claims task 2 to node 1.");
  twice(2, frameOf(3, 2, "00ff00ff"), frameOf(3, 2, "010000ff"), "Node 2 said 2 things in slot 2 (relays of claims): of path 0: claims nothing to node 0; of path 0: an error to node 1.");
  twice(0, frameOf(7, 0, ""), frameOf(1, 0, "0007000100020003000000000000"), "Node 2 said 2 things in slot 0 (state): that it is cold to node 0; a state with the counts 1, 2, 3 to node 1.");
  twice(1, frameOf(2, 1, "ff"), frameOf(2, 1, "ff"), "");
  const told = take(given.traced);
  equal(saidTwice(told, told.periods[1]), ["Node 4 said 2 things in slot 3 (values): channel 0 is 999 to nodes 0 and 1; channel 0 is -999 to nodes 2 and 3."], "the liar of a trace");
  equal(saidTwice(told, told.periods[0]), [], "a period without a liar");
  equal(pathsOf([0, 2, 3], 2), [[0, 2], [0, 3], [2, 0], [2, 3], [3, 0], [3, 2]], "paths in their order");
}

function tryTexts() {
  refuses("", "There is no text"); refuses("refused 5 0", "rule 5"); refuses(HEAD_LINE, "end line is missing"); refuses(HEAD_LINE + "end 2", "it is cut");
  equal(take("\ufeff" + given.blamed.replaceAll("\n", "\r\n")).periods.length, 10, "a mark and carriage returns");
  let said = "";
  try { readPlan("{"); } catch (e) { said = e.message; }
  demand(said.startsWith("This is no JSON text"), "a broken scenario: " + said);
}

for (const part of [tryMargins, tryEvents, tryCharges, tryPairs, tryTwice, tryTexts]) {
  try { part(); } catch (e) { demand(false, part.name + " fails: " + e.message); }
}
console.log(JSON.stringify({ checked, wrong }));
