// The page of a proxy before servers: their jobs, what a job asks and its result, instances sent, jobs stopped and given up. It makes the
// calls of docs/rules/calls.md, as any client does. All that comes from a server or stands in a document is set as text.
"use strict";

const POLL = 2000; // milliseconds from one knock to the next
const TOGETHER = 50; // milliseconds within which what servers answer is shown at once
const PATIENCE = 60000; // for an answer
const LONGEST = 4194304; // bytes of a call
const CUT = 12; // decimals that are shown
const DRAWN = 600; // cases that are drawn at once
const UNFOLDED = 40; // cases that are drawn at first
const TERMS = 12; // of a row, that are written out
const NUMBERS = 10n ** 15n; // a server's numbers are its own times this, and on
const STATES = ["running", "waiting", "issued", "killed", "finished"];
const STATUSES = {
  401: "the proxy doesn't know you: load the page anew and say who you are", 403: "the proxy refuses a call from another page",
  413: "the call is longer than 4,194,304 bytes", 502: "the server ended while it was asked; whether the call was made isn't known",
  503: "the server is down", 504: "the server didn't answer in time",
};
const CAUSES = {
  nodeLimit: "it began as many cases as were allowed", turnLimit: "it made as many turns as were allowed",
  gap: "its best point is as near to the bound as was asked", timeLimit: "it took as long as was allowed", wide: "a number passes 128 bits",
  length: "the document would be longer than 4,194,304 bytes", killed: "it was asked to stop", memory: "there was no memory",
};

// What is told to the user in place of an answer.
class Complaint extends Error {}

// ---- exact numbers

class Fraction {
  constructor(over, under = 1n) {
    const sign = under < 0n ? -1n : 1n;
    let [a, b] = [over < 0n ? -over : over, under * sign];
    while (b) [a, b] = [b, a % b];
    [this.over, this.under] = [over * sign / (a || 1n), under * sign / (a || 1n)];
  }
  plus(it) { return new Fraction(this.over * it.under + it.over * this.under, this.under * it.under); }
  minus(it) { return this.plus(new Fraction(-it.over, it.under)); }
  times(it) { return new Fraction(this.over * it.over, this.under * it.under); }
  sign() { return this.over > 0n ? 1 : this.over < 0n ? -1 : 0; }
  is(it) { return this.over === it.over && this.under === it.under; }
  isBelow(it) { return this.over * it.under < it.over * this.under; }
  // The least whole number of steps, each above 0, that isn't below it.
  roundedUp(step) {
    const over = this.over * step.under, under = this.under * step.over;
    return step.times(new Fraction(over / under + (over % under > 0n ? 1n : 0n)));
  }
  toString() { return this.under === 1n ? `${this.over}` : `${this.over}/${this.under}`; }
  // A decimal, cut towards zero, with two dots where something was cut.
  shown() {
    const scale = 10n ** BigInt(CUT), size = (this.over < 0n ? -this.over : this.over) * scale;
    const text = `${size / this.under}`.padStart(CUT + 1, "0");
    const whole = `${this.over < 0n ? "-" : ""}${text.slice(0, -CUT)}`, rest = text.slice(-CUT);
    if (size % this.under) return `${whole}.${rest}..`;
    return /[1-9]/.test(rest) ? `${whole}.${rest.replace(/0+$/, "")}` : whole;
  }
}

const ZERO = new Fraction(0n), ONE = new Fraction(1n);

// A ratio of a certificate.
function ratio(text) {
  if (!/^-?\d{1,60}(\/[1-9]\d{0,59})?$/.test(text)) throw new Complaint(`the certificate has ${text.slice(0, 40)} in the place of a number`);
  const [over, under] = text.split("/");
  return new Fraction(BigInt(over), under ? BigInt(under) : 1n);
}

// A decimal of an instance.
function decimal(text) {
  const found = /^\s*([+-]?)(\d*)(?:\.(\d*))?(?:[eE]([+-]?\d{1,3}))?\s*$/.exec(text);
  if (!found || !(found[2] || found[3]) || text.length > 400) throw new Complaint(`the instance has ${text.slice(0, 40)} in the place of a number`);
  const [, sign, whole, part = "", power = "0"] = found, size = BigInt(power) - BigInt(part.length), over = BigInt(`${whole}${part}`) * (sign === "-" ? -1n : 1n);
  return size < 0n ? new Fraction(over, 10n ** -size) : new Fraction(over * 10n ** size);
}

// An end, null where there is none.
function end(text) {
  return /^\s*[+-]?INF\s*$/.test(text) ? null : decimal(text);
}

// ---- documents

function documentOf(text, root) {
  const read = new DOMParser().parseFromString(text, "text/xml"), top = read.documentElement;
  const isBroken = read.getElementsByTagNameNS("http://www.w3.org/1999/xhtml", "parsererror").length > 0;
  if (isBroken || !top || top.localName !== root) throw new Complaint(`it isn't ${root === "osil" ? "OSiL" : `a document of ${root}`}`);
  return top;
}

// The child elements of this name; those of a name's list of names along a path.
function children(element, name) {
  return element ? Array.from(element.children).filter((child) => child.localName === name) : [];
}

function at(element, ...names) {
  for (const name of names) element = element && Array.from(element.children).find((child) => child.localName === name);
  return element || null;
}

function textAt(element, ...names) {
  const found = at(element, ...names);
  return found ? found.textContent.trim() : "";
}

function escaped(text) {
  return text.replace(/[&<>\r]/g, (mark) => ({ "&": "&amp;", "<": "&lt;", ">": "&gt;", "\r": "&#13;" })[mark]);
}

// ---- calls

// The options of a call: which job, and limits of its search.
function options(job, limits = {}) {
  const set = Object.entries(limits).filter(([, value]) => value).map(([name, value]) => `<solverOption name="${name}" value="${escaped(value)}"/>`);
  const general = job ? `<general><jobID>${escaped(job)}</jobID></general>` : "";
  return `<osol>${general}${set.length ? `<optimization><solverOptions>${set.join("")}</solverOptions></optimization>` : ""}</osol>`;
}

// The text that a call returns.
async function call(name, parts) {
  const held = Object.entries(parts).map(([part, text]) => `<${part}>${escaped(text)}</${part}>`).join("");
  const body = new TextEncoder().encode(`<Envelope><Body><${name}>${held}</${name}></Body></Envelope>`);
  if (body.length > LONGEST) throw new Complaint(`the call would have ${body.length} bytes, and at most ${LONGEST} are taken`);
  let answer, text;
  try {
    answer = await fetch("/os", { method: "POST", body, headers: { "Content-Type": "text/xml; charset=utf-8" }, cache: "no-store", signal: AbortSignal.timeout(PATIENCE) });
    text = await answer.text();
  } catch (failure) {
    throw new Complaint(failure.name === "TimeoutError" ? `no answer within ${PATIENCE / 1000} seconds` : "the proxy can't be reached");
  }
  if (answer.status !== 200 && answer.status !== 500) throw new Complaint(STATUSES[answer.status] || `the answer has the status ${answer.status}`);
  const reply = at(documentOf(text, "Envelope"), "Body"), fault = at(reply, "Fault");
  if (fault) throw new Complaint(`the server says: ${textAt(fault, "faultcode")} ${textAt(fault, "faultstring")}`);
  const returned = at(reply, `${name}Response`, `${name}Return`);
  if (!returned) throw new Complaint("what came is no reply to the call");
  return returned.textContent;
}

// ---- instances

// How often an element stands, where so many more may.
function times(element, most, what) {
  const found = /^\s*\+?(\d{1,9})\s*$/.exec(element.getAttribute("mult") ?? "1");
  if (!found || Number(found[1]) < 1 || Number(found[1]) > most) throw new Complaint(`the instance has more ${what} than a server takes`);
  return Number(found[1]);
}

function numbersOf(list) {
  const found = [];
  for (const el of children(list, "el")) {
    const step = decimal(el.getAttribute("incr") ?? "0"), count = times(el, 100001 - found.length, "numbers");
    for (let k = 0, value = decimal(el.textContent); k < count; k++, value = value.plus(step)) found.push(value);
  }
  return found;
}

function variablesOf(data) {
  const found = [];
  for (const it of children(at(data, "variables"), "var")) {
    const kind = it.getAttribute("type") ?? "C", name = it.getAttribute("name") ?? "", count = times(it, 1000 - found.length, "variables");
    let [low, high] = [end(it.getAttribute("lb") ?? "0"), end(it.getAttribute("ub") ?? "INF")];
    if (kind === "B") [low, high] = [low && ZERO.isBelow(low) ? low : ZERO, high && high.isBelow(ONE) ? high : ONE];
    for (let k = 0; k < count; k++) {
      const own = name && (count > 1 ? `${name}.${k}` : name);
      found.push({ name: own || `x${found.length}`, low, high, whole: "BIJ".includes(kind), orZero: "DJ".includes(kind) });
    }
  }
  return found;
}

function rowsOf(data) {
  const found = [];
  for (const it of children(at(data, "constraints"), "con")) {
    const name = it.getAttribute("name") ?? "", constant = decimal(it.getAttribute("constant") ?? "0"), count = times(it, 1000 - found.length, "rows");
    const ends = [it.getAttribute("lb") ?? "-INF", it.getAttribute("ub") ?? "INF"].map((text) => end(text)?.minus(constant) ?? null);
    for (let k = 0; k < count; k++) {
      const own = name && (count > 1 ? `${name}.${k}` : name);
      found.push({ name: own || `row ${found.length}`, low: ends[0], high: ends[1], factors: new Map() });
    }
  }
  return found;
}

function goalsOf(data, variables) {
  const found = [];
  for (const it of children(at(data, "objectives"), "obj")) {
    const goal = { name: it.getAttribute("name") ?? "", most: it.getAttribute("maxOrMin") === "max", constant: decimal(it.getAttribute("constant") ?? "0"), factors: new Map() };
    for (const coef of children(it, "coef")) add(goal.factors, Number(coef.getAttribute("idx")), decimal(coef.textContent), variables.length);
    for (let k = times(it, 8 - found.length, "objectives"); k > 0; k--) found.push(goal);
  }
  return found.length ? found : [{ name: "", most: false, constant: ZERO, factors: new Map() }];
}

function add(factors, index, value, count) {
  if (!(index >= 0 && index < count)) throw new Complaint("the instance has a number at a variable or row that it hasn't");
  factors.set(index, (factors.get(index) ?? ZERO).plus(value));
}

function fillMatrix(data, variables, rows) {
  const matrix = at(data, "linearConstraintCoefficients");
  if (!matrix || !matrix.children.length) return;
  const byRows = Boolean(at(matrix, "colIdx")), starts = numbersOf(at(matrix, "start")), others = numbersOf(at(matrix, byRows ? "colIdx" : "rowIdx")), values = numbersOf(at(matrix, "value"));
  if (starts.length !== (byRows ? rows : variables).length + 1 || others.length !== values.length) throw new Complaint("the lists of the instance's matrix don't fit each other");
  for (let line = 0; line + 1 < starts.length; line++) {
    for (let k = Number(starts[line]); k < Number(starts[line + 1]) && k < values.length; k++) {
      const [row, column] = byRows ? [line, Number(others[k])] : [Number(others[k]), line];
      if (!rows[row]) throw new Complaint("the instance has a number at a variable or row that it hasn't");
      add(rows[row].factors, column, values[k], variables.length);
    }
  }
}

// An instance, as far as it is shown; a server reads it more strictly.
function instanceOf(text) {
  const top = documentOf(text, "osil"), data = at(top, "instanceData"), variables = variablesOf(data), rows = rowsOf(data);
  fillMatrix(data, variables, rows);
  return { name: textAt(top, "instanceHeader", "name"), about: textAt(top, "instanceHeader", "description").replace(/\s+/g, " "), variables, rows, goals: goalsOf(data, variables) };
}

function activity(factors, point) {
  let sum = ZERO;
  for (const [j, factor] of factors) sum = sum.plus(factor.times(point[j]));
  return sum;
}

// ---- results

function resultOf(text) {
  const top = documentOf(text, "osrl"), solution = at(top, "optimization", "solution"), parts = {};
  for (const part of children(at(solution, "otherSolutionResults"), "otherSolutionResult")) {
    const name = part.getAttribute("name") ?? "";
    if (name.startsWith("os_cert.")) parts[name.slice(8)] = children(part, "item").map((item) => item.textContent);
  }
  return {
    isError: at(top, "general", "generalStatus")?.getAttribute("type") === "error", message: textAt(top, "general", "message"), state: textAt(top, "job", "status"),
    claim: at(solution, "status")?.getAttribute("type") ?? "", point: parts.point?.map(ratio), ray: parts.ray?.map(ratio), values: (parts.value ?? []).map(ratio),
    bound: parts.bound?.length ? ratio(parts.bound[0]) : null, cause: parts.cause?.[0] ?? "", rounds: parts.rounds ?? [], trees: treesOf(parts.tree ?? []), text,
  };
}

// The words of leaves that name rows alone, and what they are once they have the multipliers of variables.
const OF_ROWS = { farkasRows: "farkas", boundRows: "bound", gridRows: "grid" };

// The trees of cases, one for each objective: their nodes in preorder, each with its parent and its children.
function treesOf(items) {
  const trees = [];
  let nodes = null, open = [];
  for (const item of items) {
    if (item.startsWith("level ")) {
      if (!trees.length) trees.push([]);
      trees.push(nodes = []);
      open = [];
      continue;
    }
    if (!nodes) trees.push(nodes = []);
    const [word, ...pieces] = item.split(" "), parent = open.pop() ?? null, isOfRows = Object.hasOwn(OF_ROWS, word), kind = isOfRows ? OF_ROWS[word] : word;
    const node = { kind, isOfRows, pieces, parent, which: parent ? parent.children.length : 0, children: [], depth: parent ? parent.depth + 1 : 0, isFolded: true };
    parent?.children.push(node);
    nodes.push(node);
    if (kind === "split" || kind === "zero") open.push(node, node);
  }
  return trees;
}

// ---- what is shown: texts, tables

function make(tag, text, kind) {
  const it = document.createElement(tag);
  if (text !== undefined) it.textContent = text;
  if (kind) it.className = kind;
  return it;
}

function byId(id) {
  return document.getElementById(id);
}

function exactly(value) {
  return value && value.shown().endsWith("..") ? `${value}` : "";
}

// A table; of the head's names those in `numbers` stand to the right, and a column "exactly" is left out where it says nothing.
function tableOf(title, head, rows, numbers = []) {
  const used = head.map((_, k) => k).filter((k) => head[k] !== "exactly" || rows.some((row) => row[k]));
  const kinds = head.map((name) => (name === "exactly" ? "exact number" : numbers.includes(name) ? "number" : name === "says" ? "words" : ""));
  const box = make("div", undefined, "scrolls"), table = box.appendChild(make("table")), heads = table.createTHead().insertRow(), body = table.createTBody();
  [box.tabIndex, box.role, box.ariaLabel] = [0, "region", title];
  for (const k of used) heads.append(Object.assign(make("th", head[k], kinds[k]), { scope: "col" }));
  for (const row of rows) {
    const line = body.insertRow();
    for (const k of used) line.append(make("td", row[k], kinds[k]));
  }
  return [make("h3", title), box];
}

function facts(pairs) {
  const list = make("dl", undefined, "facts");
  for (const [name, text, kind] of pairs) if (text) list.append(make("dt", name), make("dd", text, kind));
  return list;
}

function counted(count, word) {
  return `${count.toLocaleString("en")} ${word}${count === 1 ? "" : "s"}`;
}

// What a column is restricted to.
function between(column) {
  const more = `${column.whole ? ", whole" : ""}${column.orZero ? ", or 0" : ""}`, { low, high } = column;
  if (!low && !high) return `free${more}`;
  if (low && high) return `${low.is(high) ? `= ${low.shown()}` : `${low.shown()} to ${high.shown()}`}${more}`;
  return `${low ? `≥ ${low.shown()}` : `≤ ${high.shown()}`}${more}`;
}

// A sum of variables, of which the first terms are written out.
function sumOf(factors, variables) {
  const terms = [];
  for (const [j, factor] of factors) {
    if (!factor.sign() || terms.length > TERMS) continue;
    const size = factor.sign() < 0 ? ZERO.minus(factor) : factor, front = factor.sign() < 0 ? "- " : terms.length ? "+ " : "";
    terms.push(terms.length === TERMS ? ".." : `${front}${size.is(ONE) ? "" : `${size.shown()} `}${variables[j].name}`);
  }
  return terms.join(" ") || "0";
}

function goalWords(goal, variables) {
  const constant = goal.constant.sign() ? ` + ${goal.constant.shown()}` : "";
  return `${goal.most ? "greatest" : "least"} ${goal.name ? `${goal.name} = ` : ""}${sumOf(goal.factors, variables)}${constant}`;
}

// What a job asks.
function askedView(instance) {
  const { variables, rows, goals } = instance, whole = variables.filter((it) => it.whole).length;
  const counts = `${counted(variables.length, "variable")}${whole ? `, ${whole === variables.length ? "all" : `${whole} of them`} whole` : ""}, ${counted(rows.length, "row")}`;
  const list = facts([["instance", instance.name || "without a name"], ["about", instance.about], ...goals.map((goal) => ["wanted", goalWords(goal, variables)]), ["size", counts]]);
  const more = make("details");
  more.append(make("summary", "Variables and rows"));
  more.append(...tableOf("Variables that are asked for", ["variable", "between"], variables.map((it) => [it.name, between(it)])));
  more.append(...tableOf("Rows that restrict them", ["row", "says", "between"], rows.map((it) => [it.name, sumOf(it.factors, variables), between(it)])));
  return [make("h3", "What it asks"), list, more];
}

// ---- what is shown of a result

// The multipliers of a certificate that is one leaf, by columns; those of a grid say less than its rounding. Where it names rows alone the
// instance is wanted.
function onlyLeaf(result, instance) {
  const leaf = result.trees.length === 1 && result.trees[0].length === 1 && !result.rounds.length ? result.trees[0][0] : null;
  return new Map((leaf && leaf.kind !== "grid" && (instance || !leaf.isOfRows) ? wholePairs(leaf, instance) : []));
}

// The multipliers of a leaf; of one that names rows alone with those of variables, which are what its rows leave of the costs.
function wholePairs(node, instance) {
  const pairs = pairsOf(node);
  if (!node.isOfRows) return pairs;
  const goal = instance.goals[0], left = instance.variables.map(() => ZERO);
  if (node.kind !== "farkas") for (const [j, cost] of goal.factors) left[j] = goal.most ? ZERO.minus(cost) : cost;
  for (const [column, multiplier] of pairs) {
    for (const [j, factor] of instance.rows[column - left.length]?.factors ?? []) left[j] = left[j].minus(multiplier.times(factor));
  }
  return [...left.map((it, j) => [j, it]).filter(([, it]) => it.sign()), ...pairs];
}

function pairsOf(node) {
  return node.pieces.filter((piece) => piece.includes(":")).map((piece) => piece.split(":")).map(([column, factor]) => [Number(column), ratio(factor)]);
}

function claimWords(result) {
  if (result.isError) return `refused: ${result.message}`;
  if (!result.claim) return result.message;
  const [word, ...rest] = result.cause.split(" ");
  return `${result.claim}${result.cause ? `: ${CAUSES[word] ?? "the search was ended"} (${[word, ...rest].join(" ")})` : ""}`;
}

// How far the best value may be from what was found, where the result says a bound.
function gapFacts(result) {
  if (!result.bound) return [];
  if (!result.values.length) return [["bound", withExact(result.bound)]];
  const apart = result.values[0].minus(result.bound), gap = apart.sign() < 0 ? ZERO.minus(apart) : apart, value = result.values[0];
  const part = value.sign() ? gap.times(new Fraction(100n * value.under, value.over < 0n ? -value.over : value.over)) : null;
  return [["bound", withExact(result.bound)], ["gap", `${withExact(gap)}${part ? `, ${Number(part.over) / Number(part.under) < 0.01 && part.sign() ? "below 0.01" : (Number(part.over) / Number(part.under)).toFixed(2)} % of the value` : ""}`]];
}

function withExact(value) {
  return exactly(value) ? `${value.shown()}, exactly ${value}` : value.shown();
}

function valueFacts(result, instance) {
  return result.values.map((value, k) => {
    const goal = instance?.goals[k];
    return [goal?.name || (result.values.length > 1 ? `value of objective ${k + 1}` : "value"), withExact(value)];
  });
}

function variablesTable(result, instance) {
  const leaf = onlyLeaf(result, instance), { ray } = result;
  const head = ["variable", "value", "exactly", ...(ray ? ["direction", "exactly"] : []), ...(instance ? ["between"] : []), ...(leaf.size ? ["multiplier", "exactly"] : [])];
  const rows = result.point.map((value, j) => {
    const row = [instance?.variables[j].name ?? `x${j}`, value.shown(), exactly(value)];
    if (ray) row.push(ray[j].shown(), exactly(ray[j]));
    if (instance) row.push(between(instance.variables[j]));
    if (leaf.size) row.push(leaf.get(j)?.shown() ?? "", exactly(leaf.get(j)) || "");
    return row;
  });
  return tableOf("Variables", head, rows, ["value", "direction", "multiplier"]);
}

// The rows at the point: how far each is from its ends.
function rowsTable(result, instance) {
  const leaf = onlyLeaf(result, instance), count = instance.variables.length;
  const head = ["row", "value", "exactly", "between", "above its lower end", "exactly", "below its upper end", "exactly", ...(leaf.size ? ["multiplier", "exactly"] : [])];
  const rows = instance.rows.map((row, i) => {
    const value = activity(row.factors, result.point), lower = row.low && value.minus(row.low), upper = row.high && row.high.minus(value), multiplier = leaf.get(count + i);
    const slack = (it) => [it ? (it.sign() ? it.shown() : "0, binds") : "", exactly(it) || ""];
    return [row.name, value.shown(), exactly(value), between(row), ...slack(lower), ...slack(upper), ...(leaf.size ? [multiplier?.shown() ?? "", exactly(multiplier) || ""] : [])];
  });
  return tableOf("Rows, with their slacks", head, rows, ["value", "above its lower end", "below its upper end", "multiplier"]);
}

function resultView(result, instance) {
  if (instance && result.point && result.point.length !== instance.variables.length) throw new Complaint("this isn't the instance of the job: it has another number of variables");
  const shown = [make("h3", "Result")], kind = result.isError ? "refused" : result.claim;
  shown.push(facts([["claim", claimWords(result), kind], ...valueFacts(result, instance), ...gapFacts(result)]));
  if (result.point) shown.push(...variablesTable(result, instance));
  if (result.point && instance) shown.push(...rowsTable(result, instance));
  result.trees.forEach((nodes, k) => nodes.length && shown.push(...new TreeView(nodes, instance, result, k).elements));
  if (result.claim) shown.push(make("p", "This is what the result says. Save it, and check shows from its certificate whether it is so.", "hint"));
  return shown;
}

// ---- the tree of cases

const STEP = { x: 150, y: 24 };

class TreeView {
  constructor(nodes, instance, result, level) {
    [this.nodes, this.instance, this.result, this.level, this.current] = [nodes, instance, result, level, nodes[0]];
    this.unfold(UNFOLDED);
    const title = `Tree of cases${result.trees.length > 1 ? ` of objective ${level + 1}` : ""}: ${counted(nodes.length, "node")}`;
    this.box = make("div", undefined, "scrolls");
    this.said = make("p", "", "hint");
    const more = make("button", "Unfold more"), less = make("button", "Fold all"), controls = make("p", undefined, "controls");
    [more.type, less.type] = ["button", "button"];
    more.addEventListener("click", () => { this.unfold(Math.min(4 * this.shown.length, DRAWN)); this.draw(); });
    less.addEventListener("click", () => { for (const node of this.nodes) node.isFolded = true; this.current = this.nodes[0]; this.draw(); });
    if (nodes.length > 1) controls.append(more, less);
    this.elements = [make("h3", title), controls, this.box, this.said];
    this.draw();
  }

  // Unfolds the nodes nearest to the root, as long as so many are shown.
  unfold(most) {
    for (let wave = [this.nodes[0]], count = 1; wave.length; wave = wave.flatMap((node) => node.children)) {
      for (const node of wave) {
        count += node.children.length;
        if (count > most) return;
        node.isFolded = false;
      }
    }
  }

  // The nodes that are drawn, in preorder, each with its place.
  place() {
    const shown = [], todo = [this.nodes[0]];
    let leaves = 0;
    while (todo.length && shown.length < DRAWN) {
      const node = todo.pop();
      shown.push(node);
      if (node.isFolded || !node.children.length) node.y = leaves++;
      else for (let k = node.children.length; k > 0; k--) todo.push(node.children[k - 1]);
    }
    const drawn = new Set(shown);
    for (let k = shown.length; k > 0; k--) {
      const node = shown[k - 1], below = node.isFolded ? [] : node.children.filter((child) => drawn.has(child));
      if (!node.isFolded && node.children.length) node.y = below.length ? (below[0].y + below[below.length - 1].y) / 2 : leaves++;
    }
    [this.shown, this.rest] = [shown, todo.length];
    return leaves;
  }

  draw() {
    const leaves = this.place(), deepest = Math.max(...this.shown.map((node) => node.depth));
    const svg = drawn("svg", { class: "tree", width: (deepest + 1) * STEP.x + 260, height: leaves * STEP.y + 20, role: "tree", "aria-label": "Tree of cases" });
    this.places = new Map();
    for (const node of this.shown) if (node.parent) svg.append(...this.edge(node));
    for (const node of this.shown) svg.append(this.node(node));
    const hadFocus = this.box.contains(document.activeElement);
    this.box.replaceChildren(svg);
    if (hadFocus) this.places.get(this.current)?.focus();
    this.said.textContent = this.rest ? `More than ${DRAWN} nodes aren't drawn at once; fold some to see others.` : this.nodes.length > 1 ? "A full circle is folded: press it, or go with the arrow keys and press Enter." : "";
  }

  edge(node) {
    const [x, y] = this.spot(node), [fromX, fromY] = this.spot(node.parent), half = fromX + STEP.x / 2;
    const label = drawn("text", { class: "edge", x: half + 4, y: y - 4 });
    label.textContent = this.added(node);
    return [drawn("path", { d: `M${fromX},${fromY} H${half - 6} V${y} H${x}` }), label];
  }

  spot(node) {
    return [12 + node.depth * STEP.x, 22 + node.y * STEP.y];
  }

  node(node) {
    const [x, y] = this.spot(node), folds = node.children.length > 0, label = this.label(node);
    const group = drawn("g", { class: `${node.kind.replace(/[^a-z]/g, "")}${folds ? " folds" : ""}${folds && node.isFolded ? " folded" : ""}`, role: "treeitem", "aria-level": node.depth + 1, tabindex: node === this.current ? 0 : -1 });
    if (folds) group.setAttribute("aria-expanded", String(!node.isFolded));
    group.setAttribute("aria-label", `${this.added(node)} ${label}`.trim());
    const text = drawn("text", { x: folds && !node.isFolded ? x - 4 : x + 10, y: folds && !node.isFolded ? y - 9 : y + 4 });
    text.textContent = label;
    group.append(drawn("circle", { cx: x, cy: y, r: 6 }), text);
    group.addEventListener("click", () => this.choose(node, true));
    group.addEventListener("keydown", (event) => this.press(event, node));
    this.places.set(node, group);
    return group;
  }

  choose(node, turns) {
    this.current = node;
    if (turns && node.children.length) node.isFolded = !node.isFolded;
    this.draw();
    this.places.get(node)?.focus();
  }

  press(event, node) {
    const place = this.shown.indexOf(node), isOpen = node.children.length && !node.isFolded;
    const next = { ArrowDown: this.shown[place + 1], ArrowUp: this.shown[place - 1], ArrowRight: isOpen ? node.children[0] : node, ArrowLeft: isOpen ? node : node.parent ?? node, Enter: node, " ": node, Home: this.nodes[0] }[event.key];
    if (!(event.key in { ArrowDown: 0, ArrowUp: 0, ArrowRight: 0, ArrowLeft: 0, Enter: 0, " ": 0, Home: 0 })) return;
    event.preventDefault();
    const turns = ["Enter", " "].includes(event.key) || (event.key === "ArrowRight" && !isOpen) || (event.key === "ArrowLeft" && isOpen);
    if (next) this.choose(next, turns);
  }

  name(column) {
    const { instance } = this, count = instance?.variables.length ?? 0;
    return instance?.variables[column]?.name ?? instance?.rows[column - count]?.name ?? (instance ? `added row ${column - count - instance.rows.length}` : `column ${column}`);
  }

  // What a case adds to the one above it.
  added(node) {
    if (!node.parent) return "";
    const [column, value] = node.parent.pieces;
    if (node.parent.kind === "zero") return node.which ? "its own ends" : "= 0";
    return node.which ? `≥ ${BigInt(value) + 1n}` : `≤ ${value}`.replace(/^≤ undefined$/, `case of ${column}`);
  }

  label(node) {
    if (node.children.length) return `${this.name(Number(node.pieces[0]))}${node.isFolded ? " .." : ""}`;
    if (node.kind === "bound" || node.kind === "grid") return this.bestOf(node);
    if (node.kind === "clash") return `no point: the ends of ${this.name(Number(node.pieces[0]))} clash`;
    if (node.kind !== "farkas") return "closed";
    const names = pairsOf(node).slice(0, 3).map(([column]) => this.name(column));
    return `no point: ${names.join(", ")}${node.pieces.length > 3 ? " .." : ""} can't hold together`;
  }

  // What the multipliers of a leaf show, on a grid rounded up to its steps: that no point of its case is better.
  bestOf(node) {
    const { instance } = this, pairs = pairsOf(node), count = instance ? instance.variables.length + instance.rows.length : 0;
    if (!instance || this.level || pairs.some(([column]) => column >= count)) return "no better point";
    let sum = ZERO;
    for (const [column, factor] of wholePairs(node, instance)) {
      const end = this.endOf(node, column, factor.sign() > 0);
      if (!end) return "no better point";
      sum = sum.plus(factor.times(end));
    }
    if (node.kind === "grid") {
      const step = ratio(node.pieces[0] ?? "");
      if (step.sign() <= 0) return "closed";
      sum = sum.roundedUp(step);
    }
    const goal = instance.goals[0];
    return `no better than ${(goal.most ? goal.constant.minus(sum) : goal.constant.plus(sum)).shown()}`;
  }

  // The lower or the upper end of a column in a case: its own one, as the cases above have cut it.
  endOf(node, column, isLower) {
    const { variables, rows } = this.instance, own = variables[column] ?? rows[column - variables.length];
    let end = isLower ? own.low : own.high;
    if (own.orZero && end && (isLower ? ZERO.isBelow(end) : end.isBelow(ZERO))) end = ZERO;
    for (let it = node; it.parent; it = it.parent) {
      if (Number(it.parent.pieces[0]) !== column) continue;
      const cut = it.parent.kind === "zero" ? (it.which ? (isLower ? own.low : own.high) : ZERO) : (it.which === 1) === isLower ? new Fraction(BigInt(it.parent.pieces[1]) + (isLower ? 1n : 0n)) : null;
      if (cut && (!end || (isLower ? end.isBelow(cut) : cut.isBelow(end)))) end = cut;
    }
    return end;
  }
}

function drawn(tag, attributes) {
  const it = document.createElementNS("http://www.w3.org/2000/svg", tag);
  for (const [name, value] of Object.entries(attributes)) it.setAttribute(name, value);
  return it;
}

// ---- the jobs of the servers

const servers = []; // each with its name, its number, what it told last, and since when it is in trouble
const jobs = new Map(); // by their names: the server, the state, when first seen, since when in that state
const lines = new Map(); // of the table, by the names of the jobs
const texts = new Map(); // of the instances that were sent from here, by the names of the jobs
let order = []; // the jobs as they stand in the table

// What a knock told of a server's jobs.
function take(server, text) {
  const told = at(documentOf(text, "ospl"), "processData", "statistics"), now = Date.now(), seen = new Set();
  for (const it of children(at(told, "jobs"), "job")) {
    const name = it.getAttribute("jobID") ?? "", state = textAt(it, "state"), known = jobs.get(name);
    seen.add(name);
    if (!known) jobs.set(name, { name, server, state, first: now, since: now });
    else if (known.state !== state) Object.assign(known, { state, since: now });
  }
  for (const [name, job] of jobs) if (job.server === server && !seen.has(name)) jobs.delete(name);
  Object.assign(server, { trouble: "", busy: textAt(told, "currentState"), waits: textAt(told, "currentJobCount"), total: textAt(told, "totalJobsSoFar") });
}

// Asks a server for its jobs; any number of its own brings the call to it.
async function ask(server) {
  try {
    take(server, await call("knock", { ospl: "", osol: options(`os-${BigInt(server.number) * NUMBERS}`) }));
  } catch (failure) {
    if (!server.trouble) server.down = Date.now();
    server.trouble = failure.message;
  }
  showSoon();
}

let isShownSoon = false;

// Shows what the servers told, once for all that answer within a moment: a long table is laid out anew each time.
function showSoon() {
  if (isShownSoon) return;
  isShownSoon = true;
  setTimeout(() => {
    isShownSoon = false;
    showServers();
    showJobs();
    followJob();
  }, TOGETHER);
}

async function watch(server) {
  for (;;) {
    if (!document.hidden) await ask(server);
    await new Promise((done) => setTimeout(done, POLL));
  }
}

function age(milliseconds) {
  const seconds = Math.floor(milliseconds / 1000), minutes = Math.floor(seconds / 60);
  if (minutes < 1) return `${seconds} s`;
  return minutes < 60 ? `${minutes} min ${seconds % 60} s` : `${Math.floor(minutes / 60)} h ${minutes % 60} min`;
}

function showServers() {
  byId("servers").replaceChildren(...servers.map((server) => {
    const told = server.trouble ? `${server.trouble}, for ${age(Date.now() - server.down)}` : server.total === undefined ? "is asked" : `${server.busy}, ${server.waits} wait or run`;
    return make("li", `${server.name}: ${told}`, server.trouble ? "down" : server.total === undefined ? "" : "up");
  }));
}

// Those that run come first, then those that wait, then the newest.
function rankOf(job) {
  const rank = STATES.indexOf(job.state), number = /^os-\d{1,19}$/.test(job.name) ? BigInt(job.name.slice(3)) : 0n;
  return { job, rank: rank < 0 ? STATES.length : rank, number: rank >= 0 && rank < 2 ? number : -number };
}

function sorted() {
  const which = byId("which").value, wanted = byId("find").value.trim();
  const ranked = [...jobs.values()].filter((job) => (!which || job.state === which) && job.name.includes(wanted)).map(rankOf);
  return ranked.sort((a, b) => a.rank - b.rank || (a.number < b.number ? -1 : a.number > b.number ? 1 : 0)).map((it) => it.job);
}

function lineOf(job) {
  let line = lines.get(job.name);
  if (!line) {
    line = document.createElement("tr");
    const link = make("a", job.name);
    link.href = `#${encodeURIComponent(job.name)}`;
    line.insertCell().append(link);
    line.append(make("td", job.server.name), make("td"), make("td", "", "number"), make("td", "", "number"));
    lines.set(job.name, line);
  }
  return line;
}

function setClass(element, name) {
  if (element.className !== name) element.className = name;
}

function setText(cell, text) {
  if (cell.textContent !== text) cell.textContent = text;
}

function showAges() {
  const now = Date.now();
  for (const job of order) {
    const cells = lineOf(job).cells;
    setText(cells[3], age(now - job.first));
    setText(cells[4], age(now - job.since));
  }
}

function showJobs() {
  const next = sorted(), body = byId("jobs").tBodies[0];
  if (next.length !== order.length || next.some((job, k) => job !== order[k])) {
    const focused = body.contains(document.activeElement) ? document.activeElement : null;
    body.replaceChildren(...next.map(lineOf));
    focused?.focus({ preventScroll: true });
  }
  for (const name of lines.keys()) if (!jobs.has(name)) lines.delete(name);
  order = next;
  for (const job of order) {
    const line = lineOf(job);
    setText(line.cells[2], job.state);
    setClass(line.cells[2], job.state);
    setClass(line, job.name === current ? "chosen" : "");
  }
  setText(byId("count"), `${order.length.toLocaleString("en")} of ${jobs.size.toLocaleString("en")} jobs`);
  showAges();
}

// ---- one job

let current = null; // the job that is looked at
let shown = null; // the state for which it was read last
let result = null; // its result, if it has one

function say(text, isTrouble) {
  byId("job-said").textContent = text;
  byId("job-said").className = isTrouble ? "trouble" : "";
}

function setButtons(state) {
  const isOver = state === "finished" || state === "killed";
  setText(byId("job-state"), state);
  byId("job-state").className = `state ${state}`;
  byId("stop").hidden = isOver || state === "unknown" || state === "";
  byId("give-up").hidden = !isOver;
  byId("save").hidden = !result;
}

// Shows the instance and the result, as far as they are there.
function showJob() {
  let instance = null;
  const asked = byId("asked"), text = texts.get(current);
  try {
    instance = text === undefined ? null : instanceOf(text);
    asked.replaceChildren(...(instance ? askedView(instance) : []));
    byId("result").replaceChildren(...(result ? resultView(result, instance) : []));
  } catch (failure) {
    if (!(failure instanceof Complaint)) throw failure;
    if (instance) texts.delete(current);
    say(failure.message, true);
  }
  if (!instance && result?.claim) asked.append(...instanceChooser());
}

// Where a job was sent from elsewhere, its instance can be given to this page: no call tells it.
function instanceChooser() {
  const label = make("label", "It wasn't sent from this page, and no call tells what a job asks. For names, rows and slacks give its OSiL file: ", "hint"), file = make("input");
  file.type = "file";
  file.addEventListener("change", async () => {
    if (!file.files[0]) return;
    texts.set(current, await file.files[0].text());
    say("");
    showJob();
  });
  label.append(file);
  return [label];
}

// Reads the job's result anew.
async function readJob() {
  const job = current;
  say("");
  try {
    const text = await call("retrieve", { osol: options(job) }), read = resultOf(text);
    if (job !== current) return;
    shown = read.state;
    result = read.claim || read.isError ? read : null;
    setButtons(read.isError && read.state !== "finished" ? read.state || "unknown" : read.state);
    if (!result) say({ issued: "It has a number, and no instance was sent yet.", waiting: "It waits for a worker.", running: "It runs; nothing is told of it before its end.", killed: "It was asked to stop before it ran; there is no result." }[read.state] ?? read.message);
    offerResult();
    showJob();
  } catch (failure) {
    if (job === current) say(failure.message, true);
  }
}

function offerResult() {
  const link = byId("save");
  if (link.href) URL.revokeObjectURL(link.href);
  link.removeAttribute("href");
  if (!result) return;
  link.href = URL.createObjectURL(new Blob([result.text], { type: "application/xml" }));
  link.download = `${current.replace(/[^A-Za-z0-9-]/g, "")}.osrl`;
}

// Reads it where its state is another than when it was read.
function followJob() {
  if (!current) return;
  const state = jobs.get(current)?.state;
  if (state && state !== shown && !(shown === null)) readJob();
}

function openJob() {
  let name = "";
  try { name = decodeURIComponent(location.hash.slice(1)); } catch { /* no name of a job */ }
  [current, shown, result] = [name || null, null, null];
  byId("job").hidden = !current;
  for (const id of ["asked", "result"]) byId(id).replaceChildren();
  showJobs();
  if (!current) return;
  byId("job-title").textContent = current;
  setButtons("");
  byId("job-title").focus();
  byId("job").scrollIntoView({ block: "start" });
  readJob();
}

// Asks once more, and says whether that was meant.
function isSure(question, yes) {
  const dialog = byId("sure");
  [byId("sure-text").textContent, byId("sure-yes").textContent, dialog.returnValue] = [question, yes, "no"];
  dialog.showModal();
  return new Promise((done) => dialog.addEventListener("close", () => done(dialog.returnValue === "yes"), { once: true }));
}

// Stops a job that isn't over, or gives up one that is. The same call does both, so its state is asked for before.
async function endJob(isOver, question, yes) {
  const job = current;
  if (!(await isSure(question, yes))) return;
  try {
    const state = resultOf(await call("retrieve", { osol: options(job) })).state;
    if (isOver !== (state === "finished" || state === "killed")) throw new Complaint(`${job} is ${state} now, so nothing was done`);
    await call("kill", { osol: options(job) });
    const server = jobs.get(job)?.server;
    if (server) await ask(server);
    if (job !== current) return;
    await readJob();
    if (isOver) say("It was given up: the server keeps nothing of it.");
  } catch (failure) {
    if (job === current) say(failure.message, true);
  }
}

// ---- sending

async function textToSend() {
  const file = byId("file").files[0];
  if (file && file.size > LONGEST) throw new Complaint(`the file has ${file.size} bytes, and at most ${LONGEST} are taken`);
  const text = file ? await file.text() : byId("text").value;
  if (!text.trim()) throw new Complaint("choose a file, or write an instance");
  return text;
}

async function send(event) {
  event.preventDefault();
  const said = byId("sent"), limits = { nodeLimit: byId("nodeLimit").value, pivotLimit: byId("pivotLimit").value };
  [byId("submit").disabled, said.textContent, said.className] = [true, "is sent ..", ""];
  try {
    const osil = await textToSend(), job = await call("getJobID", { osol: options("", limits) });
    if ((await call("send", { osil, osol: options(job, limits) })) !== "true") throw new Complaint(`${job} wasn't taken`);
    texts.set(job, osil);
    said.textContent = `sent as ${job}`;
    byId("form").reset();
    servers.forEach(ask);
    location.hash = encodeURIComponent(job);
  } catch (failure) {
    [said.textContent, said.className] = [failure.message, "trouble"];
  }
  byId("submit").disabled = false;
}

async function begin() {
  byId("which").append(...["", ...STATES].map((state) => Object.assign(make("option", state || "all states"), { value: state })));
  for (const id of ["which", "find"]) byId(id).addEventListener("input", showJobs);
  byId("form").addEventListener("submit", send);
  byId("stop").addEventListener("click", () => endJob(false, `Stop ${current}? Its search ends with the best point so far.`, "Stop it"));
  byId("give-up").addEventListener("click", () => endJob(true, `Give up ${current}? The server forgets its result.`, "Give it up"));
  byId("read").addEventListener("click", readJob);
  window.addEventListener("hashchange", openJob);
  try {
    const names = await (await fetch("servers.json", { cache: "no-store" })).json();
    names.forEach((name, k) => servers.push({ name: `${name}`, number: k + 1, trouble: "" }));
  } catch {
    byId("servers").append(make("li", "the proxy doesn't tell its servers", "down"));
  }
  showServers();
  servers.forEach(watch);
  setInterval(() => { if (!document.hidden) showAges(); }, 1000);
  if (location.hash) openJob();
}

begin();
