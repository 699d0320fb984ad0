// The chart and the overview, drawn to the width that there is, as chart.py draws them.
const { BELOW, COLOURS_OF_LINES, DOTS, FEW, LINE, NEAR, ROW, SHORT, THIN, VALUES } = data.chart;
const ENTRY = 100, STRIP = 34; // pixels: the most across for an entry, and the height of a receiver's line of the overview
const NARROW = 560; // pixels of a width below which texts are shorter, and the chart is less high
const LABEL = '12px system-ui, -apple-system, "Segoe UI", Helvetica, Arial, sans-serif';
const SVG = "http://www.w3.org/2000/svg";
const pen = document.createElement("canvas").getContext("2d");

const widthOf = (text, bold) => {
  pen.font = (bold ? "bold " : "") + LABEL;
  return pen.measureText(text).width;
};
const escaped = (text) => text.replace(/[&<>"']/g, (letter) => "&#" + letter.charCodeAt(0) + ";");
const many = (number) => BigInt(number).toLocaleString("en");
const fitted = (text, room, bold) => {
  if (widthOf(text, bold) <= room) return text;
  while (text && widthOf(text + "\u2026", bold) > room) text = text.slice(0, -1);
  return text + "\u2026";
};

const extentOf = (begin, end) => {
  const floor = floorAt(begin);
  const places = receivers.filter((line) => line.begin <= end && untilOf(line) >= begin)
    .map((line) => at(line.heights, Math.max(begin, line.begin)));
  const limit = floor - BELOW * data.capacity, within = places.filter((place) => place >= limit);
  let least = Math.min(floor, ...within);
  if (within.length < places.length) least = Math.max(least - Math.max(Math.floor(data.capacity / 2), 1), limit);
  return [least, Math.max(at(newest, end), least + 1)];
};

// Round numbers from the least to the most, no nearer to each other than so many pixels.
const between = (least, most, room, near, base = 0n) => {
  let step = 1;
  while (Math.max(most - least, 1) / step * near > room) step = String(step)[0] === "2" ? step * 5 / 2 : step * 2;
  const found = [], beyond = Number((BigInt(least) + base) % BigInt(step));
  for (let number = beyond ? least + step - beyond : least; number <= most; number += step) found.push(number);
  return found;
};

// The least, the most and the last of a line of steps in each pixel column in which it changes, and where it begins.
const columnsOf = (steps, begin, end, xOf) => {
  let index = countTo(steps.entries, begin);
  const last = steps.values[Math.max(index - 1, 0)];
  const found = [[Math.round(xOf(begin)), last, last, last]];
  for (; index < steps.entries.length && steps.entries[index] <= end; index++) {
    const x = Math.round(xOf(steps.entries[index])), value = steps.values[index], column = found[found.length - 1];
    if (x === column[0]) {
      column.splice(1, 3, Math.min(column[1], value), Math.max(column[2], value), value);
    } else {
      found.push([x, Math.min(column[3], value), Math.max(column[3], value), value]);
    }
  }
  return found;
};

// How far a receiver is behind, at each change up to its end.
const backlogsOf = (line) => {
  const moves = line.heights, end = untilOf(line), found = [];
  let upTo = countTo(newest.entries, line.begin), index = 1;
  found.push([line.begin, newest.values[upTo - 1] - moves.values[0]]);
  for (;;) {
    const nextMove = index < moves.entries.length ? moves.entries[index] : end + 1;
    const nextTop = upTo < newest.entries.length ? newest.entries[upTo] : end + 1;
    const entry = Math.min(nextMove, nextTop);
    if (entry > end) return found;
    if (nextMove === entry) index++;
    if (nextTop === entry) upTo++;
    found.push([entry, newest.values[upTo - 1] - moves.values[index - 1]]);
  }
};

// Labels moved so that they do not overlap.
const apart = (labels, least, most) => {
  labels.sort((one, other) => one.y - other.y);
  let last = -Infinity;
  for (const label of labels) last = label.y = Math.max(Math.min(Math.max(label.y, least), most), last + LINE);
  last = most + LINE;
  for (const label of [...labels].reverse()) last = label.y = Math.min(label.y, last - LINE);
  return labels;
};

// Where entries and positions are drawn.
const frameOf = (left, top, width, height, [begin, end], [least, most], drops) => {
  const row = height / (most - least);
  return {
    left, top, right: left + width, bottom: top + height, begin, end, least, most, row, drops, entry: width / Math.max(end - begin, 1),
    axis: top + height + Math.max(0, ...drops),
    x: (entry) => left + (entry - begin) * width / Math.max(end - begin, 1),
    y: (place) => top + height - (Math.min(Math.max(place, least), most) - least) * row,
  };
};

// ---- parts of the drawing, as text

const lineTo = (x, y, toX, toY, style) => `<line x1='${x}' y1='${y}' x2='${toX}' y2='${toY}' class='${style}'/>`;
const pathTo = (steps, style) => `<path d='${steps}' class='${style}'/>`;
const textAt = (x, y, text, style) => `<text x='${x}' y='${y}' class='${style}'>${escaped(text)}</text>`;

const pathOf = (frame, found, until, drop) => {
  let place = found[0][1];
  const parts = [`M${found[0][0]} ${(frame.y(place) + drop).toFixed(1)}`];
  for (const [x, ...heights] of found) {
    parts.push("H" + x);
    for (const height of heights) {
      if (height !== place) parts.push("V" + (frame.y(height) + drop).toFixed(1));
      place = height;
    }
  }
  return parts.join("") + "H" + Math.round(until);
};

const bandParts = (frame) => {
  const found = columnsOf(newest, frame.begin, frame.end, frame.x);
  const edges = found.map(([x, , most, last]) => [x, frame.y(most).toFixed(1), frame.y(Math.max(last - data.capacity, 0)).toFixed(1)]);
  const upper = edges.map(([x, high], index) => `H${x}V${high}H${index + 1 < edges.length ? edges[index + 1][0] : frame.right}`);
  const lower = [...edges].reverse().map(([x, , low]) => `V${low}H${x}`);
  return pathTo(`M${edges[0][0]} ${edges[0][1]}${upper.join("")}${lower.join("")}Z`, "band") +
    pathTo(pathOf(frame, found, frame.right, 0), "top");
};

const tickParts = (frame) => {
  const near = Math.max(NEAR, widthOf(many(frame.end)) + 14);
  const parts = between(frame.begin, frame.end, frame.right - frame.left, near).map((entry) =>
    lineTo(frame.x(entry), frame.axis, frame.x(entry), frame.axis + 4, "grid") +
    textAt(frame.x(entry), frame.axis + 16, many(entry), "tick soft middle"));
  parts.push(textAt(frame.right, frame.axis + 31, "entries of the trace \u2192", "tick soft end"));
  if (frame.row < VALUES) {
    return parts.concat(between(frame.least, frame.most, frame.bottom - frame.top, NEAR, BigInt(data.first)).map((place) =>
      lineTo(frame.left, frame.y(place), frame.right, frame.y(place), "grid") +
      textAt(frame.left - 6, frame.y(place) + 4, many(position(place)), "tick soft end"))).join("");
  }
  const shift = isBroadcast ? 0 : 1;
  for (let place = frame.least + shift; place < frame.most + shift; place++) {
    const y = frame.y(place - shift) - frame.row / 2, number = many(position(place));
    const value = valuesAt(place, frame.end).join(", ");
    parts.push(lineTo(0, y - frame.row / 2, frame.right, y - frame.row / 2, "grid"), textAt(0, y + 4, number, "tick soft"),
      textAt(frame.left - 6, y + 4, fitted(value, frame.left - 14 - widthOf(number)), "end"));
  }
  return parts.join("") + lineTo(0, frame.bottom, frame.right, frame.bottom, "grid");
};

const seenPath = (frame, line, begin, end, drop) => {
  const parts = [];
  let since = null;
  for (const [entry, behind] of [...line.backlogs, [end, null]]) {
    if (since !== null && Math.min(entry, end) >= begin) {
      const x = Math.round(frame.x(Math.max(since, begin))), to = Math.round(frame.x(Math.min(entry, end)));
      if (to > x) parts.push(`M${x} ${(frame.y(at(line.heights, since)) + drop).toFixed(1)}H${to}`);
    }
    if (entry >= end) break;
    since = behind === 0 ? entry : null;
  }
  return parts.join("");
};

const receiverParts = (frame, line, index) => {
  const drop = frame.drops[index], colour = index % COLOURS_OF_LINES;
  const begin = Math.max(frame.begin, line.begin), end = Math.min(frame.end, untilOf(line));
  if (begin > end) return "";
  const found = columnsOf(line.heights, begin, end, frame.x);
  const kind = isBroadcast ? "dash" + Math.floor(index / COLOURS_OF_LINES) % 3 : "unseen";
  const parts = [pathTo(pathOf(frame, found, frame.x(end), drop), `reader line${colour} ${kind}`)];
  if (!isBroadcast) parts.push(pathTo(seenPath(frame, line, begin, end, drop), `reader line${colour}`));
  if (frame.entry >= DOTS) {
    for (const [x, , , place] of found.slice(line.begin < frame.begin ? 1 : 0)) {
      parts.push(`<circle cx='${x}' cy='${frame.y(place) + drop}' r='3.5' class='fill${colour}'/>`);
    }
  }
  if (line.end !== null && line.end <= frame.end) {
    const x = frame.x(line.end), y = frame.y(at(line.heights, line.end)) + drop;
    for (const turn of [-4, 4]) parts.push(lineTo(x - 4, y - turn, x + 4, y + turn, `reader line${colour}`));
  }
  return parts.join("");
};

// The lags in view: the most missed first, and of those in the same pixel column the first.
const lagsOf = (frame) => {
  const taken = new Set();
  return receivers.flatMap((line, index) => line.lags.map(([entry, place, count]) => ({ entry, place, count, index })))
    .filter(({ entry }) => frame.begin <= entry && entry <= frame.end)
    .sort((one, other) => other.count - one.count || one.entry - other.entry)
    .filter(({ entry, index }) => {
      const key = index + " " + Math.round(frame.x(entry));
      return !taken.has(key) && taken.add(key);
    });
};

const lagParts = (frame, used) => {
  const lags = lagsOf(frame), parts = [];
  const longest = lags.slice(0, FEW).map(({ entry, place, count }) =>
    [Math.round(frame.x(entry)), frame.y(place + count), frame.y(place)]);
  for (const { entry, place, count, index } of lags) {
    const x = Math.round(frame.x(entry)), low = frame.y(place) + frame.drops[index], high = frame.y(place + count) + frame.drops[index];
    parts.push(lineTo(x, low, x, high + 4, "lag"), pathTo(`M${x - 5} ${high + 7}L${x} ${high}L${x + 5} ${high + 7}Z`, "lag-head"));
    const text = data.missed + " " + many(count), y = (low + high) / 2 + 4, width = widthOf(text, true);
    const isFree = (left) => left + width < frame.width && used.every(([other, begin, end]) =>
      Math.abs(y - other) > LINE || left > end || left + width < begin) &&
      !longest.some(([other, above, below]) => left < other && other < left + width && above <= y && y <= below);
    const left = (lags.length <= FEW ? [x + 8, x - 8 - width] : [x + 8]).find(isFree);
    if (left !== undefined) {
      used.push([y, left, left + width]);
      parts.push(textAt(left, y, text, "bold halo"));
    }
  }
  return parts.join("");
};

const labelsOf = (end, isNarrow) => {
  const last = at(newest, end), kept = last - floorAt(end);
  const labels = [{ place: last, shift: -4, text: isNarrow ? data.sent.split(" ")[0] : data.sent, style: "top-text bold" }];
  const text = "window: " + (isNarrow ? kept : plural(kept, "value"));
  if (isBroadcast && kept) labels.push({ place: last - kept / 2, shift: 0, text, style: "soft" });
  return labels;
};

const receiverLabels = (begin, end, isNarrow) => receivers.map((line, index) => {
  const last = Math.min(end, untilOf(line));
  if (line.begin > end || last < begin) return null;
  const behind = at(newest, last) - at(line.heights, last);
  const stands = isBroadcast ? (behind > data.capacity ? ", " + many(behind) + " behind" : "") : behind ? ", unseen" : "";
  const about = (isNarrow ? "" : stands) + (line.end !== null && line.end <= end ? ", ended" : "");
  return { place: at(line.heights, last), index, text: line.short + about, style: `fill${index % COLOURS_OF_LINES} bold` };
}).filter(Boolean);

// ---- the chart

const dropsOf = (row) => {
  const room = Math.max(Math.min(row * .8, 5 * (receivers.length + 1)), 2);
  return receivers.map((_, index) => room * (index + 1) / (receivers.length + 1));
};

// Draws the entries of a range, to a width in pixels; the frame.
const drawChart = (box, range, width) => {
  const rows = extentOf(...range), count = rows[1] - rows[0];
  const height = Math.max(Math.min(width < NARROW ? 280 : 380, ROW * count), LINE * (receivers.length + 2)), row = height / count;
  const values = row < VALUES ? [] : valuesBetween(...rows, range[1]);
  const numbers = Math.max(...rows.map((place) => widthOf(many(position(place)))));
  const longest = Math.max(0, ...values.map((value) => widthOf(value)));
  const left = Math.round(row < VALUES ? numbers + 10 : numbers + 16 + Math.min(longest, width / 6));
  const labels = [...labelsOf(range[1], width < NARROW), ...receiverLabels(...range, width < NARROW)];
  const right = Math.min(Math.max(...labels.map((label) => widthOf(label.text, true))) + 14, width / 3);
  const wide = Math.round(Math.min(width - left - right, ENTRY * Math.max(range[1] - range[0], 4)));
  const frame = { width, ...frameOf(left, 12, wide, height, range, rows, dropsOf(row)) };
  const bottom = Math.round(frame.axis + 38);
  for (const label of labels) label.y = frame.y(label.place) + (label.shift === undefined ? frame.drops[label.index] : label.shift);
  apart(labels, frame.top + 4, frame.bottom);
  const used = labels.map((label) => [label.y + 4, frame.right + 4, Infinity]);
  box.innerHTML = `<svg xmlns='${SVG}' class='chart' width='${width}' height='${bottom}' role='img' ` +
    `aria-label='${escaped(document.title)}'><g${row < THIN ? " class='thin'" : ""}>` + bandParts(frame) + tickParts(frame) +
    receivers.map((line, index) => receiverParts(frame, line, index)).join("") + "</g>" + lagParts(frame, used) +
    labels.map((label) => textAt(frame.right + 10, label.y + 4, fitted(label.text, right - 10, true), label.style)).join("") +
    `<line y1='${frame.top - 8}' y2='${frame.axis}' class='cursor'/></svg>`;
  return frame;
};

const valuesBetween = (least, most, entry) => {
  const found = [];
  for (let place = least; place <= most; place++) found.push(valuesAt(place, entry).join(", "));
  return found;
};

// ---- the overview

// How far each receiver was behind over the whole trace: a row for each, with a mark at each lag.
const drawOverview = (box, width) => {
  box.innerHTML = receivers.map((line, index) => {
    const peak = line.backlogs.reduce((most, [, behind]) => Math.max(most, behind), 0);
    const frame = frameOf(0, 2, width, STRIP, [0, data.last], [0, Math.max(peak, data.capacity * 1.2)], []);
    const found = [];
    let last = 0;
    for (const [entry, behind] of line.backlogs) {
      const x = Math.round(frame.x(entry)), column = found[found.length - 1];
      if (column && column[0] === x) column[1] = Math.max(column[1], behind);
      else found.push([x, column ? Math.max(last, behind) : behind]);
      last = behind;
    }
    const until = Math.round(frame.x(untilOf(line)));
    const steps = found.map(([x, behind], place) =>
      `H${x}V${frame.y(behind).toFixed(1)}H${place + 1 < found.length ? found[place + 1][0] : until}`);
    const colour = index % COLOURS_OF_LINES;
    const marks = [...new Set(line.lags.map(([entry]) => Math.round(frame.x(entry))))];
    return `<p><b class='ink${colour}'>${escaped(line.short)}</b> ${escaped(line.record)}</p>` +
      `<svg xmlns='${SVG}' class='chart' width='${width}' height='${STRIP + 10}' aria-hidden='true'>` +
      pathTo(`M${found[0][0]} ${frame.bottom}${steps.join("")}V${frame.bottom}Z`, `backlog fill${colour} line${colour}`) +
      marks.map((x) => lineTo(x, frame.bottom, x, frame.bottom + 6, "lag-mark")).join("") +
      lineTo(0, frame.bottom, width, frame.bottom, "grid") +
      lineTo(0, frame.y(data.capacity), width, frame.y(data.capacity), "grid dash2") + "</svg>";
  }).join("") + "<div id='brush'></div>";
};
