// What JavaScript itself says of the functions of lib/prelude.js, run by node (tests/prelude.sh).
//
//     node prelude.js FILE.rows..   looks whether the rows of these files want what JavaScript's own methods answer
//     node prelude.js               prints rows of many calls, each with what those methods answer
const fs = require("fs");

const peers = {
  map: (l, f) => l.map(f),
  filter: (l, f) => l.filter(f),
  find: (l, f) => l.find(f),
  findIndex: (l, f) => l.findIndex(f),
  some: (l, f) => l.some(f),
  every: (l, f) => l.every(f),
  indexOf: (l, x) => l.indexOf(x),
  includes: (l, x) => l.includes(x),
  reduce: (l, f, first) => first === undefined ? l.reduce(f) : l.reduce(f, first),
  sum: l => l.reduce((a, b) => a + b, 0),
  range: count => [...Array(Math.max(0, count)).keys()],
  at: (l, place) => l.at(place),
  slice: (l, from, to) => l.slice(from, to),
  put: (l, place, x) => l.with(place, x),
  reverse: l => l.toReversed(),
  sort: (l, compare) => l.toSorted(compare),
  flat: l => l.flat(),
  join: (l, between) => l.join(between),
  abs: Math.abs,
  min: (a, b) => Math.min(a, b),
  max: (a, b) => Math.max(a, b),
  letters: t => [...t],
  split: (t, between) => t.split(between),
  substring: (t, from, to) => t.substring(from, to),
  charAt: (t, place) => t.charAt(place),
  textIndexOf: (t, part) => t.indexOf(part),
  textIncludes: (t, part) => t.includes(part),
  toLowerCase: t => t.toLowerCase(),
  toUpperCase: t => t.toUpperCase(),
  trim: t => t.trim(),
  parseInt: t => Number.isNaN(parseInt(t, 10)) ? undefined : parseInt(t, 10),
};

// What a script of the top level alone prints by JavaScript's own methods.
function printed(script) {
  let text = "";
  const info = x => text += `log top ${JSON.stringify(typeof x === "string" ? x : String(JSON.stringify(x)))}\n`;
  new Function("bp", ...Object.keys(peers), script)({log: {info}}, ...Object.values(peers));
  return `${text}verdict quiet 0\n`;
}

// The rows of a file: their titles, scripts and what they want.
function rowsOf(path) {
  const parts = fs.readFileSync(path, "utf8").split(/^row /m).slice(1);
  const below = (part, line) => part.split(`\n${line}\n`)[1].split(/^(?!  |$)/m)[0].replace(/^  /gm, "").trimEnd() + "\n";
  return parts.map(part => ({title: part.split("\n")[0], script: below(part, "file p.js"), wants: below(part, "out")}));
}

function looked(paths) {
  const rows = paths.flatMap(rowsOf), others = rows.filter(row => printed(row.script) !== row.wants);
  for (const row of others) console.log(`${row.title}: JavaScript says\n${printed(row.script)}`);
  console.log(`by JavaScript: ${rows.length - others.length} passed, ${others.length} failed`);
  return rows.length > 0 && others.length === 0;
}

// Each call of a function with one of the texts of each list.
const calls = (name, ...choices) =>
  choices.reduce((all, list) => all.flatMap(front => list.map(x => [...front, x])), [[]]).map(words => `${name}(${words.join(", ")})`);

function manyCalls() {
  const lists = ["[]", "[0]", "[2, 1, 3, 2, 1]", '["b", "", "a"]', '[null, true, -1, "x"]'], numbers = ["[]", "[5]", "[3, -1, 2, 2, 0, -1]"];
  const places = ["-6", "-2", "-1", "0", "1", "3", "7"], mayLack = [...places, "undefined"];
  const texts = ['""', '"a"', '"abcabc"', '" a, b,, "', '"\\t x\\n"', '"Zz-09"', '"-12"', '"+7up"', '" 007"', '"- 1"', '"--3"', '"9007199254740991"'];
  const parts = ['""', '"a"', '"bc"', '","', '", "', '"-"', '"abcabcabc"'];
  return [
    ...["map", "filter"].flatMap(name => calls(name, lists, ["(x, i, l) => x === l[i] && i !== 1", "x => x"])),
    ...["find", "findIndex", "some", "every"].flatMap(name => calls(name, lists, ["x => x === 1", "x => x", "(x, i, l) => i === l.length - 1"])),
    ...["indexOf", "includes"].flatMap(name => calls(name, lists, ["0", "1", '"a"', '""', "null", "undefined"])),
    ...calls("reduce", numbers, ["(a, b) => a - b", "(a, x, i, l) => a + x * i - l.length"], ["0", "9"]),
    ...calls("reduce", numbers.slice(1), ["(a, b) => a - b", "max"]), ...calls("sum", numbers), ...calls("range", places),
    ...calls("at", lists, places), ...calls("slice", lists, mayLack, mayLack), ...calls("reverse", lists),
    ...calls("put", ["[4, 5, 6]"], ["-3", "-1", "0", "2"], ["9", "[]"]), ...calls("put", ["[4]"], ["-1", "0"], ["9"]),
    ...calls("sort", numbers, ["(a, b) => a - b", "(a, b) => b - a", "() => 0"]),
    ...calls("sort", ["[[2, 0], [1, 0], [2, 1], [1, 1], [0, 0], [1, 2]]"], ["(a, b) => a[0] - b[0]"]),
    ...calls("flat", ["[]", "[1, [2, [3]], [], [[]]]", '["a", null]']), ...calls("join", lists, ['""', '", "', "undefined"]),
    ...calls("abs", places), ...["min", "max"].flatMap(name => calls(name, places, places)),
    ...["letters", "toLowerCase", "toUpperCase", "trim", "parseInt"].flatMap(name => calls(name, texts)),
    ...["split", "textIndexOf", "textIncludes"].flatMap(name => calls(name, texts, parts)),
    ...calls("split", texts, ["undefined"]), ...calls("substring", texts.slice(0, 4), places, mayLack), ...calls("charAt", texts.slice(0, 4), places),
  ];
}

function madeRows() {
  const all = manyCalls(), size = 40, indented = text => text.trimEnd().replace(/^/gm, "  ");
  for (let at = 0; at < all.length; at += size) {
    const script = all.slice(at, at + size).map(call => `bp.log.info(${call});\n`).join("");
    console.log(`row calls from ${at}\nfile p.js\n${indented(script)}\nmore p.js from lib/prelude.js\nrun bp run p.js\nout\n${indented(printed(script))}\n`);
  }
}

const paths = process.argv.slice(2);
if (paths.length === 0) madeRows();
else process.exit(looked(paths) ? 0 : 1);
