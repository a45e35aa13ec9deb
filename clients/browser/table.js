// The tables of a run: one for each agent, with a row for each line of this browser and the line of `opfs` beside it.

import { comparesStamps, isSame, linesByPlace } from "./compare.js";

function elementOf(name, text, className) {
  const element = document.createElement(name);
  element.textContent = text;
  if (className) element.className = className;
  return element;
}

// What a step says besides its word, as `file f, as s`.
function membersOf(step) {
  const members = Object.entries(step ?? {}).filter(([name]) => name !== "do");
  const text = members.map(([name, it]) => `${name} ${typeof it === "string" ? it : JSON.stringify(it)}`).join(", ");
  return text.length > 60 ? `${text.slice(0, 60)}..` : text;
}

export class Table {
  #there;
  #rows = new Map();
  #bodies = new Map();
  #agents;

  constructor(place, agents, printed) {
    this.#agents = agents;
    this.#there = linesByPlace(printed);
    place.replaceChildren(...agents.map((agent) => this.#section(agent)));
    for (const agent of agents) {
      agent.steps.forEach((step, index) => this.#row({ agent: agent.number, step: index + 1, word: step.do }));
    }
    for (const line of this.#there.values()) {
      if (this.#bodies.has(line.agent)) this.#row(line);
    }
  }

  #section({ number, key }) {
    const section = document.createElement("section");
    const table = document.createElement("table");
    const head = table.createTHead().insertRow();
    head.append(...["", "Line", "Call", "This browser", "opfs"].map((it) => elementOf("th", it)));
    section.append(elementOf("h2", `Agent ${number}: ${key ?? "an opaque origin"}`), table);
    this.#bodies.set(number, table.createTBody());
    return section;
  }

  #row({ agent, step, word }) {
    const place = `${agent}.${step}`;
    if (this.#rows.has(place)) return this.#rows.get(place);
    const element = this.#bodies.get(agent).insertRow();
    const call = elementOf("td", word, "call");
    call.append(elementOf("span", membersOf(this.#agents[agent - 1].steps[step - 1]), "members"));
    const row = { place, element, mark: elementOf("td", "", "mark"), here: elementOf("td", "", "answer"), line: undefined };
    const there = elementOf("td", this.#textThere(place, word), "answer");
    element.append(row.mark, elementOf("td", place), call, row.here, there);
    this.#rows.set(place, row);
    return row;
  }

  #textThere(place, word) {
    const line = this.#there.get(place);
    if (line === undefined) return "";
    return line.word === word ? line.answer : `${line.word} ${line.answer}`;
  }

  // A line of this browser.
  add(line) {
    const row = this.#row(line);
    row.line = line;
    row.here.textContent = line.answer;
    if (this.#there.size > 0) this.#mark(row);
  }

  #mark(row) {
    const agent = this.#agents[Number.parseInt(row.place, 10) - 1];
    const there = this.#there.get(row.place);
    row.isSame = isSame(row.line, there, comparesStamps(this.#agents, agent));
    const isAlike = row.isSame && row.line.answer !== there.answer;
    row.element.className = row.isSame ? "same" : "differs";
    row.mark.textContent = row.isSame ? (isAlike ? "~" : "") : "≠";
  }

  // Marks the lines that one side alone has, and gives the differing ones.
  finish() {
    if (this.#there.size === 0) return { compared: 0, differing: [] };
    const rows = [...this.#rows.values()];
    for (const row of rows.filter((it) => it.line === undefined)) this.#mark(row);
    const textOf = (line) => (line ? `${line.word} ${line.answer}` : "");
    const differing = rows.filter((it) => !it.isSame).map(({ place, line }) =>
      ({ place, here: textOf(line), there: textOf(this.#there.get(place)) }));
    return { compared: rows.length, differing };
  }
}
