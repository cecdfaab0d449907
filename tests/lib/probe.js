// Drives the page of view/replay.html over the drawings of a check, and puts what is wrong into the title.
// A drawing has: text, perhaps scenario, periods, nodes, and cells; a cell has at (period, node), words, absent (words), and pixels
// (x and y within the cell, and a colour). A place is a pixel of a period: x, the lane and y within it, and a colour. A refusal has text and the words that must be told. What is readable
// must be drawn at all.
"use strict";
const wrong = [];
let checked = 0;

function demand(holds, what) { checked += 1; if (!holds) wrong.push(what); }

function colour(x, y) {
  const scale = canvas.width / parseFloat(canvas.style.width);
  const data = canvas.getContext("2d").getImageData(Math.round(x * scale), Math.round(y * scale), 1, 1).data;
  return "#" + [...data.slice(0, 3)].map((part) => part.toString(16).padStart(2, "0")).join("");
}

function pageWords() { return document.getElementById("words").textContent; }

function luminance(hex) {
  const parts = [1, 3, 5].map((at) => parseInt(hex.slice(at, at + 2), 16) / 255).map((v) => v <= 0.03928 ? v / 12.92 : ((v + 0.055) / 1.055) ** 2.4);
  return 0.2126 * parts[0] + 0.7152 * parts[1] + 0.0722 * parts[2];
}

function contrast(a, b) { const [low, high] = [luminance(a), luminance(b)].sort((x, y) => x - y); return (high + 0.05) / (low + 0.05); }

function checkDrawing(drawing) {
  showAll([...(drawing.scenario ? [{ name: "the scenario", text: drawing.scenario }] : []), { name: "the text", text: drawing.text }]);
  const problem = document.getElementById("problem").textContent;
  demand(problem === "", drawing.name + ": " + problem);
  if (!window.shown) { demand(false, drawing.name + ": nothing is shown"); return; }
  demand(window.shown.periods === drawing.periods && window.shown.nodes === drawing.nodes, drawing.name + ": " + window.shown.periods + " periods of " + window.shown.nodes + " nodes");
  if (drawing.opens !== undefined) demand(pageWords().includes("Period 0, node " + drawing.opens), drawing.name + ": opens elsewhere");
  for (const cell of drawing.cells || []) {
    const [period, node] = cell.at, at = drawing.name + ", period " + period + ", node " + node;
    go(period, node);
    for (const words of cell.words || []) demand(pageWords().includes(words), at + ": no words '" + words + "'");
    for (const words of cell.absent || []) demand(!pageWords().includes(words), at + ": words '" + words + "'");
    for (const [x, y, wanted] of cell.pixels || []) { const got = colour(state.width * period + x, HEAD + ROW * node + y); demand(got === wanted, at + ": pixel " + x + "," + y + " is " + got + ", not " + wanted); }
  }
  for (const [period, x, lane, y, wanted] of drawing.places || []) { const got = colour(state.width * period + x, (state.at[lane] || 0) + y); demand(got === wanted, drawing.name + ", period " + period + ", " + lane + " " + x + "," + y + ": " + got + ", not " + wanted); }
  if (drawing.lost !== undefined) { go(0, 0); document.getElementById("lost").click(); demand(state.period === drawing.lost && !document.getElementById("lost").disabled, drawing.name + ": the lost claim is not gone to"); }
  else demand(document.getElementById("lost").disabled, drawing.name + ": a lost claim is told");
}

function told(id) { return document.getElementById(id).textContent; }

// a text and its scenario are a pair; an old scenario goes unless it fits and the user keeps it
function checkPairs() {
  const [one, other] = pairs, file = (name, text) => ({ name, text });
  clear(); state.offered = null;
  showAll([file("a.txt", one.text)]);
  demand(told("pair") === "Text: a.txt. Scenario: none." && !document.getElementById("ask").hidden, "a text alone: " + told("pair"));
  demand(margin(state.run.periods[0]) === null && pageWords().includes("the margin is ?"), "a margin is told where m isn't known");
  document.getElementById("m").value = "1"; giveRounds();
  demand(margin(state.run.periods[0]) === 4 && pageWords().includes("with a margin of 4"), "m as the user gives it makes no margin");
  showAll([file("a.json", one.scenario)]);
  demand(told("pair") === "Text: a.txt. Scenario: a.json." && document.getElementById("ask").hidden, "a scenario after its text: " + told("pair"));
  showAll([file("b.txt", other.text)]);
  demand(told("pair") === "Text: b.txt. Scenario: none." && document.getElementById("keep").hidden, "a scenario that doesn't fit is offered or kept: " + told("pair"));
  showAll([file("a.json", one.scenario), file("a.txt", one.text)]); showAll([file("c.txt", one.text)]);
  demand(told("pair") === "Text: c.txt. Scenario: none." && !document.getElementById("keep").hidden, "a scenario that fits isn't offered, or is kept unasked: " + told("pair"));
  document.getElementById("keep").click();
  demand(told("pair") === "Text: c.txt. Scenario: a.json." && document.getElementById("keep").hidden, "a scenario isn't kept: " + told("pair"));
  showAll([file("b.json", other.scenario)]);
  demand(told("problem").includes("isn't that of this text: it has") && canvas.width === 0, "another text's scenario is taken: " + told("problem"));
  showAll([file("a.json", one.scenario)]); showAll([file("a.txt", one.text)]);
  demand(told("pair") === "Text: a.txt. Scenario: a.json.", "a scenario before its text: " + told("pair"));
  showAll([file("a.txt", one.text), { name: "x.txt", text: "", error: "too long" }]);
  demand(told("problem") === "x.txt can't be read: too long" && canvas.width === 0 && !window.shown, "a file that can't be read: " + told("problem"));
}

// the question mark of a margin that isn't known, zoom, and what happens
function checkDoing() {
  const [one] = pairs;
  showAll([{ name: "a.json", text: one.scenario }, { name: "a.txt", text: one.text }]);
  const before = state.width;
  zoomBy(1); demand(state.width > before && canvas.style.width === state.width * 10 + 8 + "px", "no wider columns");
  zoomBy(-1); zoomBy(-1); demand(state.width < before, "no narrower columns");
  plot.style.width = "300px"; document.getElementById("fit").click();
  demand(canvas.offsetWidth + SIDE <= plot.clientWidth, "the width isn't fitted: " + canvas.offsetWidth);
  plot.style.width = "";
  go(0, 0);
  for (const [period, words] of [[1, "node 4 is asymmetric"], [2, "node 4 is charged with deviate"], [3, "node 4 is symmetric"]]) {
    document.getElementById("next").click();
    demand(state.period === period && pageWords().includes(words), "the next event in period " + period + " is in " + state.period + ", and the words have no '" + words + "'");
  }
  document.getElementById("last").click(); demand(state.period === 2, "the event before is in period " + state.period);
  go(9, 0); goEvent(1); demand(state.period === 9 && told("told").includes("Nothing happens behind"), "something happens behind the end");
}

function checkPolicy() {
  const policy = document.querySelector("meta[http-equiv=Content-Security-Policy]");
  demand(policy && policy.content.startsWith("default-src 'none'; script-src 'sha256-") && !/unsafe|http|\*/.test(policy.content), "the page's policy allows more than it needs");
  const script = document.createElement("script"); script.textContent = "window.injected = 2;"; document.body.append(script);
  demand(window.injected !== 2, "another script runs in the page");
}

function checkRefusal(refusal) {
  show(drawings[0].text);
  show(refusal.text);
  demand(document.getElementById("problem").textContent.includes(refusal.words), refusal.words + ": the problem is '" + document.getElementById("problem").textContent + "'");
  demand(canvas.width === 0 && pageWords() === "" && !window.shown, refusal.words + ": the old drawing stays");
}

// a text that would be an element, had the page put it there as such
function checkInjection(texts) {
  texts.forEach(show);
  demand(!document.querySelector("main img") && !window.injected, "a text gets into the page as an element");
}

function checkContrasts() {
  for (const [a, b, least] of CONTRASTS) demand(contrast(COLOURS[a], COLOURS[b]) >= least, "contrast of " + a + " and " + b);
  for (const [name, ground] of Object.values(CLASSES)) { demand(contrast(COLOURS.ink, ground) >= 4.5, "text on " + name); demand(contrast(COLOURS.count, ground) >= 3, "bar on " + name); }
}

function drop(kind) {
  const data = new DataTransfer();
  data.setData("text/plain", drawings[0].text);
  document.body.dispatchEvent(new DragEvent(kind, { bubbles: true, cancelable: true, dataTransfer: data }));
}

try {
  for (const drawing of drawings) { clear(); checkDrawing(drawing); }
  checkPairs(); checkDoing(); checkPolicy();
  for (const refusal of refusals) checkRefusal(refusal);
  injections.forEach(checkInjection);
  checkContrasts();
  for (const [name, text] of readable) { show(text); demand(window.shown, name + ": " + document.getElementById("problem").textContent); }
  clear(); drop("drop");
  demand(window.shown && window.shown.periods === drawings[0].periods, "a text that is dropped on the page is not drawn");
  demand(getComputedStyle(document.getElementById("labels")).position === "sticky", "the names of the rows scroll away");
} catch (error) { demand(false, "the page fails: " + error.message); }
document.title = "looked " + checked + " wrong " + wrong.length + " " + JSON.stringify(wrong.slice(0, 12));
