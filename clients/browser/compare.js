// A browser's lines beside those that `opfs` printed, agent by agent.

const LINE = /^(\d+)\.(\d+) (\S+) (.+)$/;

export const textOfLine = ({ agent, step, word, answer }) => `${agent}.${step} ${word} ${answer}`;

// The lines of a transcript by agent and step, `1.1` and so on; lines of evictions are left out, as no browser tells them.
export function linesByPlace(text) {
  const found = text.split(/\r?\n/).map((it) => LINE.exec(it)).filter(Boolean);
  const lines = found.map(([, agent, step, word, answer]) => ({ agent: Number(agent), step: Number(step), word, answer }));
  return new Map(lines.map((it) => [`${it.agent}.${it.step}`, it]));
}

// Whether an agent's time stamps can be compared: where several agents of an origin have clocks of their own, nobody knows whose made a stamp.
export function comparesStamps(agents, agent) {
  const mates = agents.filter((it) => it.key === agent.key);
  return mates.length === 1 || !mates.some((it) => it.steps.some((step) => step.do === "moment"));
}

// What of a line is compared: of a refusal its name alone, of an estimate that there is one.
function comparedPart({ word, answer }, hasStamps) {
  const [first, ...rest] = answer.split(" ");
  if (first !== "ok" || word === "estimate") return `${word} ${first}`;
  if (word === "getFile" && !hasStamps) return `${word} ok ${rest[0]}`;
  return `${word} ${answer}`;
}

export function isSame(here, there, hasStamps) {
  return here !== undefined && there !== undefined && comparedPart(here, hasStamps) === comparedPart(there, hasStamps);
}
