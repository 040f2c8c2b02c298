// Runs the scripts of crates/rows/data/properties.rows on this engine, and compares the lines. Prints the rows that differ and
// how many there are; the status is 1 where one differs. The order of properties, which stand in braces, and the messages of
// errors are left out, since they are our own, and so are the rows that name `window`: what this engine begins with may change.
"use strict";
const fs = require("fs");
const path = require("path");
const vm = require("vm");

if (/^(-h|--help)$/.test(process.argv[2])) {
  console.log(fs.readFileSync(__filename, "utf8").split("\n").filter((line) => line.startsWith("//")).map((line) => line.slice(3)).join("\n"));
  process.exit();
}
const source = fs.readFileSync(path.join(__dirname, "../crates/rows/data/properties.rows"), "utf8");
const rows = source.trimEnd().split("\n").map((line) => JSON.parse(line)).filter((row) => !/\bwindow\b/.test(row.items));

function linesOf(items) {
  let lines = "";
  const console = { log: (...texts) => { lines += "log " + texts.map(String).join(" ") + "\n"; } };
  try {
    vm.runInNewContext('"use strict";' + items, { console });
  } catch (error) {
    lines += "uncaught " + error + "\n";
  }
  return lines;
}

function compared(lines) {
  return lines.replace(/(\w*Error) [^;\n]*;/g, "$1;").replace(/\{(.*)\}/g, (_, all) => "{" + all.split(" ").sort().join(" ") + "}");
}

let differing = 0;
for (const row of rows) {
  const got = linesOf(row.items);
  if (compared(got) !== compared(row.text)) {
    differing += 1;
    console.log(row.items + "\nwanted:\n" + row.text + "here:\n" + got);
  }
}
console.log(rows.length + " rows, " + differing + " differ");
process.exitCode = differing === 0 ? 0 : 1;
