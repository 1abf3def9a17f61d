// Makes the calls that compare's `record` wrote down on mast.wasm: node replay.mjs mast.wasm RECORD. See replay.c, which does the
// same on the other processors. Ends with status 0 only if no call differs.
import { readFileSync } from "node:fs";

const [, , module, record] = process.argv;
const NAMES = ["start", "create", "ident", "delete", "obtain", "release", "flush", "tick", "task"].map((name) => "mast_" + name);
const NUMBERS = [1, 5, 1, 2, 4, 2, 2, 0, 1];
const SERVICES = ["cre_sem", "del_sem", "sig_sem", "wai_sem", "preq_sem", "twai_sem", "ref_sem", "delete_mapped"].map((name) => "mast_" + name);
const SERVICE_NUMBERS = [5, 2, 2, 2, 2, 3, 2, 2];
const [START, IDENT, LEND, WRITE, END, LIST, FIRST, REF_SEM, DELETE_MAPPED, CODE] = [0, 2, 16, 17, 18, 19, 32, 38, 39, 40];
const [GUARD, GUARD_BYTE, MOST_BYTES, MOST_ENTRIES, UNWRITTEN] = [64, 0xa5, 12000, 160, 0xa5a55a5a];
// The room for an answer, in words, and how many of them an ITRON call's has, if not a code and the next task.
const ROOM = 8;
const ANSWER_WORDS = { [REF_SEM]: 5, [DELETE_MAPPED]: 3, [CODE]: 0 };

const library = (await WebAssembly.instantiate(readFileSync(module))).instance.exports;
const bytes = new Uint8Array(library.memory.buffer);
const words = new DataView(library.memory.buffer);
// An answer, the count of slots between guards, the priorities, the list between guards and the tables between guards lie behind what the
// library keeps for itself.
const answer = (library.__heap_base.value + 15) & ~15;
const looked = answer + 4 * ROOM;
const priorities = looked + 16;
const listMemory = priorities + 2048;
const memory = listMemory + GUARD + 4 + 4 * MOST_ENTRIES + GUARD;
if (memory + GUARD + 4 + MOST_BYTES + GUARD > bytes.length) throw Error("the library's memory is too small");

const entries = readFileSync(record);
let at = 0;
const word = () => entries.readUInt32LE((at += 4) - 4);

let tables = memory + GUARD;
let length = 0;

function lend(offset, count) {
  const held = bytes.slice(tables, tables + Math.min(length, count));
  bytes.fill(GUARD_BYTE, memory, memory + GUARD + 4 + MOST_BYTES + GUARD);
  tables = memory + GUARD + offset;
  length = count;
  bytes.fill(0, tables, tables + length);
  bytes.set(held, tables);
}

function write(place, count) {
  bytes.set(entries.subarray(at, at + count), tables + place);
  at += (count + 3) & ~3;
}

let list = listMemory + GUARD;
let count = 0;

function lendList(shift, length) {
  if (shift > 1 || length > MOST_ENTRIES) throw Error("the record lends a longer list than there is");
  bytes.fill(GUARD_BYTE, listMemory, memory);
  list = listMemory + GUARD + 4 * shift;
  count = length;
  for (let place = 0; place < count; place++) words.setUint32(list + 4 * place, word(), true);
}
lendList(0, 0);

function sum(from, length) {
  let found = 0x811c9dc5;
  for (let place = from; place < from + length; place++) found = Math.imul(found ^ bytes[place], 0x01000193);
  return found >>> 0;
}

// How many words the latest answer has; the rest of its room stays as it was.
let answered = 0;
const answerWord = (place) => words.getUint32(answer + 4 * place, true);

// Makes the room for an answer of so many words, and for what an ident counts, as no call leaves it.
function poison(count) {
  answered = count;
  for (let place = answer; place < looked + 12; place += 4) words.setUint32(place, UNWRITTEN, true);
}

function roomHolds() {
  for (let place = answered; place < ROOM; place++) if (answerWord(place) !== UNWRITTEN) return false;
  return true;
}

const guardsHold = () =>
  roomHolds() &&
  words.getUint32(looked, true) === UNWRITTEN &&
  words.getUint32(looked + 8, true) === UNWRITTEN &&
  bytes.subarray(listMemory, list).every((byte) => byte === GUARD_BYTE) &&
  bytes.subarray(list + 4 * count, list + 4 * count + GUARD).every((byte) => byte === GUARD_BYTE) &&
  bytes.subarray(memory, tables).every((byte) => byte === GUARD_BYTE) &&
  bytes.subarray(tables + length, tables + length + GUARD).every((byte) => byte === GUARD_BYTE);

// Makes a call of the library; its answer, the sum over the tables after it, and what it counted.
function found(name, given) {
  poison(3);
  library[name](answer, tables, length, ...given);
  return [0, 1, 2].map(answerWord).concat(sum(tables, length), words.getUint32(looked + 4, true));
}

// Makes an ITRON call; its code, the next task and what ref_sem tells, and the sums over tables and list after it.
function served(kind, given) {
  poison(ANSWER_WORDS[kind] ?? 2);
  const numbers = [0, 0, 0, 0, 0];
  if (kind === CODE) numbers[0] = library.mast_itron_code(given[0]) >>> 0;
  else library[SERVICES[kind - FIRST]](answer, tables, length, list, count, ...given.slice(0, SERVICE_NUMBERS[kind - FIRST]));
  for (let place = 0; place < answered; place++) numbers[place] = answerWord(place);
  // A Classic delete answers status, value and next.
  if (kind === DELETE_MAPPED) [numbers[1], numbers[2]] = [numbers[2], numbers[1]];
  return numbers.concat(sum(tables, length), sum(list, 4 * count));
}

let [calls, differences] = [0, 0];

// Whether what was found of a call is as recorded; the first few that are not are said.
function asRecorded(name, numbers, recorded) {
  const same = guardsHold() && numbers.every((number, place) => number === recorded[place]);
  if (!same && differences < 5) console.log(`difference in call ${calls}, ${name}: recorded ${recorded}, found ${numbers}`);
  return same;
}

for (let kind = word(); kind !== END; kind = word()) {
  if (kind === LEND) lend(word(), word());
  else if (kind === WRITE) write(word(), word());
  else if (kind === LIST) lendList(word(), word());
  else if (kind >= FIRST) {
    const given = [word(), word(), word(), word(), word()];
    const recorded = [word(), word(), word(), word(), word(), word(), word()];
    calls++;
    if (!asRecorded(SERVICES[kind - FIRST] ?? "mast_itron_code", served(kind, given), recorded)) differences++;
  } else {
    const numbers = [word(), word(), word(), word(), word()];
    const given = numbers.slice(0, NUMBERS[kind]);
    if (kind === START) {
      for (let each = 0; each < numbers[1]; each++) words.setUint32(priorities + 4 * each, word(), true);
      given.push(numbers[1] === 0 ? 0 : priorities, numbers[1]);
    }
    const recorded = [word(), word(), word(), word()];
    calls++;
    // An ident is made by both of its functions, and its second number is what it counts.
    let same = asRecorded(NAMES[kind], found(NAMES[kind], given), [...recorded, UNWRITTEN]);
    if (kind === IDENT)
      same = asRecorded("mast_ident_looked", found("mast_ident_looked", [...given, looked + 4]), [...recorded, numbers[1]]) && same;
    if (!same) differences++;
  }
}
if (word() !== calls) throw Error("the record ends with another number of calls");
console.log(`${calls} calls, ${differences} differences`);
process.exit(differences === 0 ? 0 : 1);
