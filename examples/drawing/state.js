"use strict";
// The timeline of the page's trace, and the state of its topic after an entry, in words.
const part = (id) => document.getElementById(id);
const data = JSON.parse(part("data").textContent);
const isBroadcast = data.kind === "B";
const IDLE = 3; // so many cells in turn that are alike become one
const LONGEST = 80; // letters shown of a value

// ---- lines of steps

const summed = (numbers) => {
  let sum = 0;
  return numbers.map((number) => (number === null ? null : (sum += number)));
};

const stepsOf = ([entries, values]) => ({ entries: summed(entries), values: summed(values) });

// How many of some rising numbers are no more than a number.
const countTo = (numbers, most) => {
  let low = 0, high = numbers.length;
  while (low < high) {
    const middle = (low + high) >> 1;
    if (numbers[middle] <= most) low = middle + 1;
    else high = middle;
  }
  return low;
};

const at = (steps, entry) => steps.values[Math.max(countTo(steps.entries, entry) - 1, 0)];

const newest = stepsOf(data.top);
const slowest = stepsOf(data.slowest);
const [liveSenders, liveReceivers] = data.live.map(stepsOf);
const saidAt = summed(data.said[0]);
const said = data.said[1];
for (const line of data.lines) {
  line.short = line.name || line.side + " " + line.number;
  if (!line.places) continue;
  line.places = stepsOf(line.places);
  line.heights = line.heights ? stepsOf(line.heights) : line.places;
}
const receivers = data.lines.filter((line) => line.isShown);
const lags = [...new Set(receivers.flatMap((line) => line.lags.map(([entry]) => entry)))].sort((one, other) => one - other);
const rows = data.rows.split("\n");

const untilOf = (line) => (line.end === null ? data.last : line.end);
const isLive = (line, entry) => line.begin <= entry && (line.end === null || entry < line.end);
const floorAt = (entry) => Math.max(at(newest, entry) - data.capacity, 0);

// A position or version by its number in the trace, which may be beyond what a number of JavaScript holds.
const position = (above) => String(BigInt(data.first) + BigInt(above));

// The sentence of an entry; behind the first one also its call and its reply.
const textsOf = (entry) => {
  const [text, ...numbers] = rows[entry].split(" ");
  let next = 0;
  return data.texts[text].replace(/\0/g, () => numbers[next++]).split("\x01");
};

// ---- words

const plural = (count, word) => count + " " + word + (count === 1 ? "" : "s");
const quoted = (value) => "\u201c" + ([...value].length > LONGEST ? [...value].slice(0, LONGEST).join("") + "\u2026" : value) + "\u201d";
const span = (word, begin, end) => (begin === end ? word + " " + position(begin) : word + "s " + position(begin) + " to " + position(end));

// The values at a position, or of a version, up to an entry: more than one where it was changed quietly.
const valuesAt = (place, entry) => {
  if (isBroadcast) {
    const index = place - data.low;
    return index >= 0 && index < said.length && saidAt[index] <= entry ? [said[index]] : [];
  }
  const found = [];
  for (let index = countTo(saidAt, entry) - 1; index >= 0 && at(newest, saidAt[index]) >= place; index--) {
    if (at(newest, saidAt[index]) === place) found.unshift(said[index]);
  }
  return found;
};
const valueAt = (place, entry) => valuesAt(place, entry).pop();

// The least position that is kept, or the next one where none is.
const lowAt = (entry) => {
  const next = at(newest, entry), least = at(slowest, entry);
  return Math.min(next, Math.max(next - data.capacity, least === null ? next : least));
};

const factsAt = (entry) => {
  const next = at(newest, entry), senders = at(liveSenders, entry);
  const low = isBroadcast ? lowAt(entry) : 0;
  const kept = !isBroadcast ? "version " + position(next) + ", " + quoted(valueAt(next, entry)) :
    low < next ? plural(next - low, "value") + ", at " + span("position", low, next - 1) : "nothing";
  const live = plural(senders, "sender") + " and " + plural(at(liveReceivers, entry), isBroadcast ? "receiver" : "reader");
  return ["Kept: " + kept + ".", "Live: " + live + (senders ? "." : "; without a sender the channel is closed.")];
};

const receiverAt = (line, entry) => {
  const place = at(line.places, entry), next = at(newest, entry), begin = next - data.capacity;
  if (place >= next) return "has read everything; position " + position(place) + " is next";
  if (place < begin) {
    return "has missed " + plural(begin - place, "value") + ", at " + span("position", place, begin - 1) + ", not reported to it yet";
  }
  const value = valueAt(place, entry);
  return "reads position " + position(place) + " next" + (value === undefined ? "" : ", " + quoted(value)) +
    "; " + plural(next - place, "value") + " to come";
};

const MARKED = -1; // a mark that was taken away, so that the newest version is unseen
const readerAt = (line, entry) => {
  const mark = at(line.places, entry), version = at(newest, entry);
  if (mark === version) return "has seen version " + position(mark) + ", the newest";
  if (mark === null) return "version " + position(version) + " is unseen";
  if (mark === MARKED) return "version " + position(version) + " is marked as unseen";
  return "version " + position(version) + " is unseen; the mark is at version " + position(mark);
};

const handleAt = (line, entry) => {
  if (!isLive(line, entry)) return line.begin > entry ? "does not exist yet" : "has ended";
  if (!line.places) return "live";
  return isBroadcast ? receiverAt(line, entry) : readerAt(line, entry);
};

// ---- the strip of cells

// The receivers at each position that one reads next, or at each version that one has seen.
const standingAt = (entry) => {
  const here = new Map();
  for (const line of receivers.filter((one) => isLive(one, entry))) {
    const place = at(line.places, entry);
    if (place === null || place === MARKED) continue;
    here.set(place, [...(here.get(place) || []), line.short]);
  }
  return here;
};

// The positions or versions at which a run of like cells may begin or end, rising.
const edgesAt = (entry, here) => {
  const next = at(newest, entry);
  const found = isBroadcast ? [...[...here.keys()].map((place) => Math.min(place, next)), floorAt(entry), lowAt(entry), next, next + 1] :
    [Math.min(...here.keys(), Math.max(0, next - IDLE)), ...here.keys(), next, next + 1];
  return [...new Set(found)].sort((one, other) => one - other);
};

const kindAt = (entry) => {
  const next = at(newest, entry);
  if (!isBroadcast) return (place) => (place === next ? "kept" : "replaced");
  const low = lowAt(entry), least = at(slowest, entry);
  return (place) => (place >= next ? "next" : place >= low ? "kept" : least !== null && place >= least ? "missed" : "dropped");
};

// Each cell: a range of positions or versions, one alone or many that are alike.
const cellsAt = (entry) => {
  const here = standingAt(entry), ends = edgesAt(entry, here), kindOf = kindAt(entry), cells = [];
  const add = (begin, end) => cells.push({
    label: end === begin + 1 ? position(begin) : position(begin) + " to " + position(end - 1),
    value: end === begin + 1 ? valueAt(begin, entry) || "" : "\u2026",
    kind: kindOf(begin), here: here.get(begin) || [],
  });
  ends.slice(1).forEach((end, index) => {
    let begin = ends[index];
    if (here.has(begin)) add(begin, ++begin);
    if (end - begin > IDLE) add(begin, end);
    else for (; begin < end; begin++) add(begin, begin + 1);
  });
  return cells;
};
