"use strict";
const data = JSON.parse(document.getElementById("data").textContent);
const names = Object.keys(data.runs);
const verdicts = ["allowed", "violated", "refused"];
const classes = ["good", "bad", "warn"];
const titles = { trace: "trace.txt", counterexample: "the counterexample" };
// a table of more steps than these is folded: shown are the first, the last, those around the present one and some that are not allowed
const MOST = 60, AROUND = 8, MOST_NOT_ALLOWED = 20;
let name = names.includes("counterexample") ? "counterexample" : names[0];
let at = 0;
let unfolded = false;

const one = (id) => document.getElementById(id);
const all = (query) => [...document.querySelectorAll(query)];

function element(kind, text, marks = {}) {
  const made = document.createElement(kind);
  if (text instanceof Node) made.append(text);
  else made.textContent = text;
  for (const [key, value] of Object.entries(marks)) made.setAttribute(key, value);
  return made;
}

function row(cells, marks) {
  const made = element("tr", "", marks);
  made.append(...cells.map((cell) => element("td", cell)));
  return made;
}

function verdict(step) {
  const told = verdicts[step.answer] + (step.answer === 0 ? "" : " " + step.detail);
  return element("span", told, { class: "tag " + classes[step.answer] });
}

function putTabs() {
  one("tabs").replaceChildren(...names.map((key) => {
    const marks = { type: "button", class: "tab", role: "tab", "aria-selected": key === name, "aria-controls": "panel", id: "tab-" + key };
    const tab = element("button", titles[key], marks);
    tab.tabIndex = key === name ? 0 : -1;
    tab.addEventListener("click", () => choose(key));
    return tab;
  }));
  one("panel").setAttribute("aria-labelledby", "tab-" + name);
}

// the places of the steps that are shown, from 1
function shownPlaces(steps) {
  if (unfolded || steps.length <= MOST) return steps.map((_, place) => place + 1);
  const other = steps.map((step, place) => (step.answer === 0 ? 0 : place + 1)).filter(Boolean).slice(0, MOST_NOT_ALLOWED);
  const near = (place) => Math.abs(place - at) <= AROUND;
  const keep = new Set([1, 2, 3, steps.length - 1, steps.length, ...other]);
  return steps.map((_, place) => place + 1).filter((place) => near(place) || keep.has(place));
}

function foldRow(steps, from, to) {
  const part = steps.slice(from - 1, to);
  const allowed = part.every((step) => step.answer === 0) ? ", all allowed" : "";
  const lines = `lines ${part[0].line} to ${part[part.length - 1].line}`;
  const button = element("button", `${lines}: ${part.length} steps${allowed}. Show all`, { type: "button" });
  button.addEventListener("click", () => { unfolded = true; show(); });
  const made = element("tr", "", { class: "fold" });
  made.append(element("td", button, { colspan: 4 }));
  return made;
}

function putSteps(steps) {
  const rows = [];
  let next = 1;
  for (const place of [...shownPlaces(steps), steps.length + 1]) {
    if (place > next) rows.push(foldRow(steps, next, place - 1));
    if (place <= steps.length) {
      const step = steps[place - 1];
      const made = row([step.line, step.step, step.words, verdict(step)], { "data-place": place });
      if (place === at) made.setAttribute("aria-current", "step");
      made.addEventListener("click", () => go(place));
      rows.push(made);
    }
    next = place + 1;
  }
  one("steps").tBodies[0].replaceChildren(...rows);
}

function putStates(step) {
  all(".lit, .hot").forEach((found) => found.classList.remove("lit", "hot"));
  const rows = [];
  for (const [policy, groups] of Object.entries(step.states)) {
    const told = data.policies[policy] + (step.open.includes(Number(policy)) ? "" : " (not open)");
    for (const [x, states] of groups) {
      const cell = element("span", "");
      states.forEach((state, place) => {
        cell.append(place ? ", " : "", element("span", state, state > 5 ? { class: "offending" } : {}));
        const lit = all(`#policies .state[data-policy="${policy}"][data-state="${state}"]`);
        lit.forEach((found) => found.classList.add(state > 5 ? "hot" : "lit"));
      });
      rows.push(row([told, x, cell]));
    }
  }
  one("states").tBodies[0].replaceChildren(...rows);
}

function putPath(steps) {
  all(".node.been, .node.now").forEach((found) => found.classList.remove("been", "now"));
  steps.slice(0, at).forEach((step, place) => {
    if (step.node === null) return;
    for (const found of all(`.node[data-node="${step.node}"]`)) {
      found.classList.add("been");
      found.classList.toggle("now", place === at - 1);
    }
  });
}

function show() {
  const run = data.runs[name];
  const step = at === 0 ? run.start : run.steps[at - 1];
  one("at").max = run.steps.length;
  one("at").value = at;
  one("where").textContent = at === 0 ? `before step 1 of ${run.steps.length}` : `step ${at} of ${run.steps.length}`;
  one("note").textContent = run.note;
  one("why").textContent = step.why;
  one("open").textContent = step.open.map((policy) => data.policies[policy]).join("  ›  ") || "none";
  one("live").textContent = step.live || "none";
  one("retired").textContent = step.retired || "none";
  putSteps(run.steps);
  putStates(step);
  putPath(run.steps);
}

function go(place) {
  at = Math.min(Math.max(0, place), data.runs[name].steps.length);
  history.replaceState(null, "", `#${name}/${at}`);
  show();
}

// the step to begin with: the violated one of a trace, the last of a counterexample
function first(key) {
  const steps = data.runs[key].steps;
  const violated = steps.findIndex((step) => step.answer === 1) + 1;
  return key === "counterexample" ? steps.length : violated;
}

function choose(key, place = first(key)) {
  name = key;
  unfolded = false;
  putTabs();
  go(place);
}

function fromLink() {
  const [key, place] = location.hash.slice(1).split("/");
  if (!names.includes(key)) return choose(name);
  return /^[0-9]+$/.test(place || "") ? choose(key, Number(place)) : choose(key);
}

function onKey(event) {
  if (event.altKey || event.ctrlKey || event.metaKey || event.target.id === "at") return;
  const steps = data.runs[name].steps.length;
  const tab = event.target.getAttribute && event.target.getAttribute("role") === "tab";
  if (tab && names.length > 1 && ["ArrowLeft", "ArrowRight"].includes(event.key)) {
    choose(names[(names.indexOf(name) + 1) % names.length]);
    one("tab-" + name).focus();
  } else if (event.key === "ArrowRight" || event.key === "ArrowDown") go(at + 1);
  else if (event.key === "ArrowLeft" || event.key === "ArrowUp") go(at - 1);
  else if (event.key === "Home") go(0);
  else if (event.key === "End") go(steps);
  else return;
  event.preventDefault();
}

if (names.length) {
  one("first").addEventListener("click", () => go(0));
  one("before").addEventListener("click", () => go(at - 1));
  one("after").addEventListener("click", () => go(at + 1));
  one("last").addEventListener("click", () => go(data.runs[name].steps.length));
  one("at").addEventListener("input", (event) => go(Number(event.target.value)));
  addEventListener("keydown", onKey);
  addEventListener("hashchange", fromLink);
  fromLink();
} else {
  one("stepwise").hidden = true;
}
