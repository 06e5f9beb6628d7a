/** The rows that a user sees, drawn as a tree of processes with their LWPs. */

import { tag } from "./dom.mjs";
import { lwpFacts, processFacts } from "./facts.mjs";
import { forest } from "./state.mjs";

const STATES = { trace_stop: "trace-stop", job_stop: "job-stop", zombie: "zombie" };

/** @typedef {import("./state.mjs").Rows} Rows */
/** @typedef {import("./facts.mjs").Fact} Fact */

/** A fact; if it differs from the other row's, with what that says. */
function factTag({ key, text, before }) {
  const made = tag("span", { className: `fact ${key}${before === undefined ? "" : " changed"}` });
  if (before) made.append(tag("del", { textContent: before }));
  if (before !== undefined && text) made.append(before ? " " : "", tag("ins", { textContent: text }));
  else if (before === undefined) made.append(text);
  return made;
}

/** Whether a row is new, gone, changed, or as it was ("") beside the rows that it is compared with. */
function markOf(row, other, isCompared) {
  if (!isCompared) return "";
  if (!other) return "new";
  return other === row || JSON.stringify(other) === JSON.stringify(row) ? "" : "changed";
}

/** One row of the tree: a name and its facts. */
function rowTag(kind, name, facts, { level, mark = "", states = "" }) {
  const made = tag("div", { className: `${kind} ${states} ${mark}`.trim().replaceAll(/ +/g, " ") },
    tag("span", { className: "name", textContent: name }),
    ...(mark === "new" || mark === "gone" ? [tag("span", { className: "note", textContent: mark })] : []),
    ...facts.map(factTag));
  made.setAttribute("role", "treeitem");
  made.setAttribute("aria-level", level);
  made.style.setProperty("--level", level);
  return made;
}

/**
 * The rows as a tree. Facts in which they differ from the rows `before` are marked, and rows that only those have come
 * last, as gone.
 *
 * @param {Rows} rows
 * @param {{before?: Rows | null, folded?: Set<number>}} how  `folded` are processes without what is below them
 * @returns {HTMLElement[]} a row each; each process's and its LWPs' have `dataset.pid`
 */
export function stateTree(rows, { before = null, folded = new Set() } = {}) {
  const made = [];
  const add = (pid, row) => {
    row.dataset.pid = String(pid);
    made.push(row);
  };
  const addBranch = ({ process, lwps, below, by }, level) => {
    const other = before?.processes.get(process.pid);
    const row = rowTag("process", String(process.pid), processFacts(process, other), { level,
      mark: markOf(process, other, before), states: `${STATES[process.state] ?? "runs"} by-${by}` });
    add(process.pid, row);
    if (lwps.length + below.length === 0) return;
    row.setAttribute("aria-expanded", String(!folded.has(process.pid)));
    if (folded.has(process.pid)) return;
    for (const lwp of lwps) {
      const old = before?.lwps.get(lwp.lwp);
      add(process.pid, rowTag("lwp", `LWP ${lwp.lwp}`, lwpFacts(lwp, old),
        { level: level + 1, mark: markOf(lwp, old, before) }));
    }
    for (const branch of below) addBranch(branch, level + 1);
  };
  for (const branch of forest(rows)) addBranch(branch, 1);
  for (const row of goneRows(rows, before)) add(row.dataset.pid, row);
  return made;
}

/** The rows that only the rows before have. */
function goneRows(rows, before) {
  if (!before) return [];
  const gone = (kind, name, facts, pid) => {
    const row = rowTag(kind, name, facts, { level: 1, mark: "gone" });
    row.dataset.pid = String(pid);
    return row;
  };
  const processes = [...before.processes.values()].filter(({ pid }) => !rows.processes.has(pid));
  const lwps = [...before.lwps.values()].filter(({ lwp }) => !rows.lwps.has(lwp));
  return [
    ...processes.map((row) => gone("process", String(row.pid), processFacts(row), row.pid)),
    ...lwps.map((row) => gone("lwp", `LWP ${row.lwp}`, lwpFacts(row), row.pid)),
  ];
}
