// Functions of lists, texts and events that many programs begin with. They go behind a program, so that none of its lines moves:
//
//     bp run <(cat mine.js lib/prelude.js) INJECTOR..
//
// A function declaration has its value from the start, so the program may call them anywhere. One that has the name of a method of
// JavaScript answers as that method does: `map(list, f)` as `list.map(f)`. Lists never change: each answers a new one. Where JavaScript
// throws, the run is at fault. A fault with a line past the program's last one is of a value that was given to one of these.

// ---- Lists. A function that is given is called with an element, its place and the list.

function map(list, f) {
  let made = [];
  for (let i = 0; i < list.length; i++) made = made.concat([f(list[i], i, list)]);
  return made;
}

function filter(list, isKept) {
  let made = [];
  for (let i = 0; i < list.length; i++) if (isKept(list[i], i, list)) made = made.concat([list[i]]);
  return made;
}

// The first element for which `isIt` answers what counts as true, or undefined.
function find(list, isIt) {
  for (let i = 0; i < list.length; i++) if (isIt(list[i], i, list)) return list[i];
  return undefined;
}

// Its place, or -1.
function findIndex(list, isIt) {
  for (let i = 0; i < list.length; i++) if (isIt(list[i], i, list)) return i;
  return -1;
}

function some(list, isIt) {
  return findIndex(list, isIt) !== -1;
}

function every(list, isIt) {
  for (let i = 0; i < list.length; i++) if (!isIt(list[i], i, list)) return false;
  return true;
}

// The place of the first element that is `===` to x, or -1. Two lists, or two fields, can't be compared: a fault.
function indexOf(list, x) {
  for (let i = 0; i < list.length; i++) if (list[i] === x) return i;
  return -1;
}

function includes(list, x) {
  return indexOf(list, x) !== -1;
}

// f(.. f(f(first, list[0]), list[1]) ..). Without `first` it begins with the first element, and an empty list is a fault.
function reduce(list, f, first) {
  const isGiven = first !== undefined;
  let all = isGiven ? first : list[0];
  for (let i = isGiven ? 0 : 1; i < list.length; i++) all = f(all, list[i], i, list);
  return all;
}

// The sum of whole numbers, 0 of an empty list.
function sum(list) {
  let all = 0;
  for (const x of list) all += x;
  return all;
}

// [0, 1, .., count - 1]
function range(count) {
  let made = [];
  for (let i = 0; i < count; i++) made = made.concat([i]);
  return made;
}

// The element at a place, counted from the end where it is negative, or undefined.
function at(list, place) {
  const from = place < 0 ? list.length + place : place;
  return from < 0 || from >= list.length ? undefined : list[from];
}

// The elements from one place to before another. A negative place counts from the end; an absent one is the start, or the end.
function slice(list, from, to) {
  const end = to === undefined ? list.length : placeIn(list, to);
  let made = [];
  for (let i = from === undefined ? 0 : placeIn(list, from); i < end; i++) made = made.concat([list[i]]);
  return made;
}

function placeIn(list, place) {
  return min(list.length, max(0, place < 0 ? list.length + place : place));
}

// `list.with(place, x)`: the list with x at this place, counted from the end where it is negative. A place outside is a fault.
function put(list, place, x) {
  const from = place < 0 ? list.length + place : place, old = list[from];
  return slice(list, 0, from).concat([x], slice(list, from + 1));
}

function reverse(list) {
  let made = [];
  for (let i = list.length - 1; i >= 0; i--) made = made.concat([list[i]]);
  return made;
}

// `compare(a, b)` is negative where a comes first, positive where b does, and 0 where they stay as they are: (a, b) => a - b.
function sort(list, compare) {
  if (list.length < 2) return list;
  const half = Math.floor(list.length / 2);
  const left = sort(slice(list, 0, half), compare), right = sort(slice(list, half), compare);
  let made = [], i = 0, j = 0;
  while (i < left.length || j < right.length) {
    if (j === right.length || i < left.length && compare(left[i], right[j]) <= 0) {
      made = made.concat([left[i]]);
      i++;
    } else {
      made = made.concat([right[j]]);
      j++;
    }
  }
  return made;
}

// The lists that it holds, joined; what is not a list stays.
function flat(list) {
  let made = [];
  for (const x of list) made = made.concat(x);
  return made;
}

// A text of texts, numbers and truth values, with `between` between them, or a comma. Null and undefined are as an empty text.
function join(list, between) {
  let text = "";
  for (let i = 0; i < list.length; i++) {
    if (i > 0) text += between === undefined ? "," : between;
    if (list[i] !== undefined && list[i] !== null) text += list[i];
  }
  return text;
}

// ---- Numbers

function abs(n) {
  return n < 0 ? -n : n;
}

function min(a, b) {
  return a < b ? a : b;
}

function max(a, b) {
  return a < b ? b : a;
}

// ---- Texts. They have no length and no letters here, so they are taken apart by trying each letter of `alphabet`: a letter of a text
// costs 20 to 700 nodes of the budget. Another letter is the fault `index`: add it there.

function lowerLetters() {
  return ["a", "b", "c", "d", "e", "f", "g", "h", "i", "j", "k", "l", "m", "n", "o", "p", "q", "r", "s", "t", "u", "v", "w", "x", "y", "z"];
}

function upperLetters() {
  return ["A", "B", "C", "D", "E", "F", "G", "H", "I", "J", "K", "L", "M", "N", "O", "P", "Q", "R", "S", "T", "U", "V", "W", "X", "Y", "Z"];
}

function digits() {
  return ["0", "1", "2", "3", "4", "5", "6", "7", "8", "9"];
}

function blanks() {
  return [" ", "\n", "\t", "\r"];
}

function alphabet() {
  return lowerLetters().concat(blanks(), digits(), upperLetters(), [".", ",", ":", ";", "-", "_", "!", "?", "'", "\"", "(", ")", "[", "]",
    "{", "}", "<", ">", "/", "\\", "|", "+", "*", "=", "%", "&", "#", "@", "$", "^", "~", "`"]);
}

// The one of these letters that stands in a text behind this beginning of it, which is not all of it.
function letterAfter(text, front, known) {
  for (const letter of known) if (text.startsWith(front + letter)) return letter;
  return [][0];
}

// The letters of a text, [...text]. Their `length` is that of the text, and the functions of lists take them.
function letters(text) {
  const known = alphabet();
  let made = [], front = "";
  while (front !== text) {
    const letter = letterAfter(text, front, known);
    made = made.concat([letter]);
    front += letter;
  }
  return made;
}

function split(text, between) {
  if (between === undefined) return [text];
  if (between === "") return letters(text);
  const known = alphabet();
  let parts = [], part = "", front = "";
  while (front !== text) {
    if (text.startsWith(front + between)) {
      parts = parts.concat([part]);
      part = "";
      front += between;
    } else {
      const letter = letterAfter(text, front, known);
      part += letter;
      front += letter;
    }
  }
  return parts.concat([part]);
}

// The letters from one place to before another, from the lesser one on; a place outside is the nearer end, and so is an absent `to`.
function substring(text, from, to) {
  const all = letters(text);
  const a = max(0, from), b = to === undefined ? all.length : max(0, to);
  return join(slice(all, min(a, b), max(a, b)), "");
}

// The letter at a place, or an empty text.
function charAt(text, place) {
  return substring(text, place, place + 1);
}

// `text.indexOf(part)`: the first place at which the text has this part, or -1.
function textIndexOf(text, part) {
  const known = alphabet();
  let front = "", place = 0;
  while (!text.startsWith(front + part)) {
    if (front === text) return -1;
    front += letterAfter(text, front, known);
    place++;
  }
  return place;
}

// `text.includes(part)`
function textIncludes(text, part) {
  return textIndexOf(text, part) !== -1;
}

// Each letter of the text, but those that stand in one list as those at their places in the other.
function exchanged(text, from, to) {
  return join(map(letters(text), letter => includes(from, letter) ? to[indexOf(from, letter)] : letter), "");
}

function toLowerCase(text) {
  return exchanged(text, upperLetters(), lowerLetters());
}

function toUpperCase(text) {
  return exchanged(text, lowerLetters(), upperLetters());
}

// The text without the blanks that it begins and ends with.
function trim(text) {
  const all = letters(text);
  let from = 0, to = all.length;
  while (from < to && includes(blanks(), all[from])) from++;
  while (from < to && includes(blanks(), all[to - 1])) to--;
  return join(slice(all, from, to), "");
}

// `parseInt(text, 10)`: the whole number that a text begins with, behind blanks. Where it begins with none, undefined, for NaN.
function parseInt(text) {
  const all = letters(trim(text)), isSigned = includes(["-", "+"], at(all, 0));
  const values = map(slice(all, isSigned ? 1 : 0), letter => indexOf(digits(), letter)).concat([-1]);
  const count = indexOf(values, -1);
  const n = reduce(slice(values, 0, count), (front, digit) => 10 * front + digit, 0);
  return count === 0 ? undefined : all[0] === "-" ? -n : n;
}

// ---- Events

// All events of this name, with any data or none.
function named(name) {
  return bp.EventSet(name, e => e.name === name);
}

// All events but these: an event, a set, or a list of such.
function allExcept(events) {
  return bp.none.or(events).negate();
}

// Stops until one of the events comes, and answers it; or until `count` events `tick` came, and answers undefined.
function timeout(count, events) {
  for (let left = count; left > 0; left--) {
    const e = bp.sync({waitFor: [bp.Event("tick"), events]});
    if (e !== bp.Event("tick")) return e;
  }
  return undefined;
}
