"use strict";
// Compares the operators on numbers, `===`, `==` and the reading of texts as numbers with those of node.
//
//     node compare/whole_ops.js [CASES [SEED]]
//
// It makes CASES random cases (100,000 where left out), each with node's answer, and has crates/tables tell those that it answers
// otherwise: the same where node's result is true, false, NaN or a whole number in range, with 0 for -0, and `outside` where it
// is another number. In two places the language here differs from node: a text that is a decimal with a point or an exponent
// is `outside`, and so is a power below 0 that is a fraction, where node may round it to 0. The program is built by `rt run`
// in crates/tables.

const { spawnSync } = require("child_process");
const fs = require("fs");
const os = require("os");
const path = require("path");

if (/^(-h|--help)$/.test(process.argv[2])) {
  const lines = fs.readFileSync(__filename, "utf8").split("\n");
  console.log(lines.filter((line) => line.startsWith("//")).map((line) => line.slice(3)).join("\n"));
  process.exit();
}
const program = path.join(__dirname, "..", "crates", "tables", "out", "tables");
const cases = Number(process.argv[2] || 100000);
let state = Number(process.argv[3] || 1) >>> 0;

// xorshift, so that a seed gives the same cases everywhere
function below(n) {
  state ^= state << 13; state >>>= 0;
  state ^= state >>> 17;
  state ^= state << 5; state >>>= 0;
  return state % n;
}

function pick(list) {
  return list[below(list.length)];
}

const edges = [0, 1, 2, 3, 10, 31, 32, 33, 53, 255, 2 ** 31 - 1, 2 ** 31, 2 ** 31 + 1, 2 ** 32 - 1, 2 ** 32, 2 ** 32 + 1,
  94906265, 94906266, 2 ** 52, 2 ** 53 - 2, 2 ** 53 - 1];

function number() {
  switch (below(8)) {
    case 0: return NaN;
    case 1: case 2: return pick(edges);
    case 3: case 4: return -pick(edges) + 0;
    case 5: return below(41) - 20;
    case 6: return below(2 ** 31) - 2 ** 30;
    default: return (below(2) ? 1 : -1) * (below(2 ** 21) * 2 ** 32 + below(2 ** 31)) + 0;
  }
}

const pieces = ["0", "1", "12", "9007199254740991", "9007199254740992", "007", "+", "-", ".", "e", "E", "0x", "0X", "1F", "g",
  "Infinity", "NaN", " ", "\u00a0", "\u2028", "\ufeff", "\u180e", "\u200b", "x", "_", "3"];

function text() {
  let t = "";
  for (let k = below(5); k > 0; k--) t += pick(pieces);
  return t;
}

function value() {
  switch (below(6)) {
    case 0: return pick([undefined, null]);
    case 1: return pick([true, false]);
    case 2: case 3: return text();
    default: return number();
  }
}

// a power below 0 of a number above 1 in size is a fraction; doubles round small ones to 0
function power(a, b) {
  return b < 0 && Math.abs(a) > 1 ? 1 / 2 : Math.pow(a, b);
}

const operators = {
  "+": (a, b) => a + b,
  "-": (a, b) => a - b,
  "*": (a, b) => a * b,
  "/": (a, b) => a / b,
  "%": (a, b) => a % b,
  "**": power,
  "&": (a, b) => a & b,
  "|": (a, b) => a | b,
  "^": (a, b) => a ^ b,
  "<<": (a, b) => a << b,
  ">>": (a, b) => a >> b,
  ">>>": (a, b) => a >>> b,
  "~": (a, b) => ~a,
};
const names = Object.keys(operators);

function shown(result) {
  if (typeof result === "boolean") return String(result);
  if (Number.isNaN(result)) return "NaN";
  return Number.isSafeInteger(result) ? String(result + 0) : "outside";
}

// a text that writes a number well, but as no integer
function isOutside(t) {
  const bare = t.trim();
  return !/^$|^[+-]?[0-9]+$|^0[xX][0-9a-fA-F]+$/.test(bare) && !Number.isNaN(Number(bare));
}

function read(t) {
  return isOutside(t) ? "outside" : shown(Number(t));
}

function loose(a, b) {
  const isNumeric = (v) => typeof v === "number" || typeof v === "boolean";
  if (typeof a === "string" && isNumeric(b) && read(a) === "outside") return "outside";
  if (typeof b === "string" && isNumeric(a) && read(b) === "outside") return "outside";
  return shown(a == b);
}

function word(v) {
  return typeof v === "string" ? "'" + v : String(v);
}

const lines = [];
const wanted = [];
for (let i = 0; i < cases; i++) {
  const kind = below(20);
  if (kind < 13) {
    const [name, a, b] = [names[kind], number(), number()];
    lines.push([name, word(a), word(b)].join("\t"));
    wanted.push(shown(operators[name](a, b)));
  } else if (kind === 13) {
    const [a, b] = [number(), number()];
    lines.push(["<", word(a), word(b)].join("\t"));
    wanted.push(Number.isNaN(a) || Number.isNaN(b) ? "undefined" : String(a < b));
  } else if (kind < 17) {
    const t = text();
    lines.push(["number", word(t)].join("\t"));
    wanted.push(read(t));
  } else {
    const [a, b] = [value(), value()];
    const strict = kind === 17;
    lines.push([strict ? "===" : "==", word(a), word(b)].join("\t"));
    wanted.push(strict ? String(a === b) : loose(a, b));
  }
}

const folder = fs.mkdtempSync(path.join(os.tmpdir(), "whole_ops-"));
fs.writeFileSync(path.join(folder, "numbers.rows"), lines.map((line, i) => `${line}\t${wanted[i]}\n`).join(""));
const run = spawnSync(program, ["numbers.rows"], { cwd: folder, maxBuffer: 2 ** 30 });
fs.rmSync(folder, { recursive: true });
if (run.error || run.status !== 0) {
  console.error("the program failed:", run.error || run.status, String(run.stderr));
  process.exit(2);
}
const told = String(run.stdout).split("\n").slice(0, -2);
for (const line of told.slice(0, 20)) {
  const [number, answer] = line.split(": ");
  console.error(`${JSON.stringify(lines[number - 1])}: ${answer}, and node has ${wanted[number - 1]}`);
}
console.log(`${cases} cases, ${told.length} differ`);
process.exit(told.length === 0 ? 0 : 1);
