// The page: the slider and the other ways from entry to entry, and what is shown of each.
(() => {
  const last = data.last;
  const slider = part("slider");
  const tip = part("tip");
  const parts = [...document.querySelectorAll(".trace [data-entry]")];
  const events = parts.filter((group) => group.classList.contains("event"));
  const entryOf = (group) => Number(group.dataset.entry);
  const PLAYED = 40; // steps in which Play goes through what is in view, at most
  const PACE = 600; // milliseconds of a step
  const LEAST = 12; // entries that are shown at least
  let now = 0, range = data.shown, frame = null, timer = null;
  for (const line of receivers) line.backlogs = backlogsOf(line);

  const element = (name, style, text) => {
    const made = document.createElement(name);
    if (style) made.className = style;
    if (text !== undefined) made.textContent = text;
    return made;
  };

  // ---- what is shown of an entry

  const cell = ({ label, value, kind, here }) => {
    const item = element("li", kind === "missed" ? "missed-cell" : kind);
    const box = element("div", "cell");
    box.append(element("span", "label", label), element("span", "value-text", value), element("span", "kind", kind));
    item.append(box);
    if (here.length) item.append(element("div", "here", "\u25b2 " + here.join(", ")));
    return item;
  };

  const showState = (entry) => {
    part("facts").replaceChildren(...factsAt(entry).map((fact) => element("li", "", fact)));
    part("cells").replaceChildren(...cellsAt(entry).map(cell));
    [...part("handles").rows].forEach((row, index) => {
      const state = handleAt(data.lines[index], entry);
      row.cells[1].textContent = state;
      row.classList.toggle("now", entry > 0 && state !== handleAt(data.lines[index], entry - 1));
      row.classList.toggle("absent", !isLive(data.lines[index], entry));
    });
  };

  const showEvents = () => {
    for (const group of parts) group.classList.toggle("now", entryOf(group) === now && now > 0);
    for (const group of events) group.tabIndex = entryOf(group) === Math.max(now, 1) ? 0 : -1;
  };

  const showCursor = () => {
    const cursor = document.querySelector("#chart .cursor");
    for (const end of ["x1", "x2"]) cursor.setAttribute(end, frame.x(now));
  };

  // The event of the strips that are shown: there are two, one of them for narrow screens.
  const shownEvent = () => events.find((group) => entryOf(group) === Math.max(now, 1) && group.getClientRects().length);

  // Where the strips scroll in their own box, the event comes into view there.
  const reveal = () => {
    const group = shownEvent();
    const box = group && group.closest(".drawing");
    if (!box) return;
    const above = group.getBoundingClientRect().top - box.getBoundingClientRect().top;
    if (above < 0 || above > box.clientHeight - 60) box.scrollTop += above - box.clientHeight / 3;
  };

  const show = (entry) => {
    now = Math.min(Math.max(entry, 0), last);
    const [sentence, ...lines] = textsOf(now);
    slider.value = now;
    slider.setAttribute("aria-valuetext", now + " of " + last);
    part("count").textContent = many(now) + " of " + many(last);
    part("sentence").textContent = sentence;
    part("lines").replaceChildren(...lines.map((line) => element("span", "", line)));
    part("back").disabled = now === 0;
    part("on").disabled = now === last;
    part("next-lag").disabled = !(now < lags[lags.length - 1]);
    showState(now);
    showEvents();
    reveal();
    if (now < range[0] || now > range[1]) look(now - (range[1] - range[0]) / 3, range[1] - range[0]);
    else showCursor();
  };

  // ---- the chart, and what it shows

  const draw = () => {
    frame = drawChart(part("chart"), range, part("chart").clientWidth);
    showCursor();
    part("range").textContent = "Entries " + many(range[0]) + " to " + many(range[1]) + " of " + many(last);
    part("closer").disabled = range[1] - range[0] <= LEAST;
    part("farther").disabled = part("whole").disabled = range[0] === 0 && range[1] === last;
    const brush = part("brush");
    if (brush) {
      brush.hidden = part("whole").disabled;
      brush.style.left = 100 * range[0] / last + "%";
      brush.style.width = 100 * (range[1] - range[0]) / last + "%";
    }
  };

  // Shows so many entries, from one on.
  const look = (begin, count) => {
    const size = Math.min(Math.max(Math.round(count), Math.min(LEAST, last)), last);
    const from = Math.min(Math.max(Math.round(begin), 0), last - size);
    range = [from, from + size];
    draw();
  };

  const zoom = (factor) => {
    const size = (range[1] - range[0]) * factor;
    const middle = now >= range[0] && now <= range[1] ? now : (range[0] + range[1]) / 2;
    look(middle - size / 2, size);
  };

  const drawTicks = () => {
    const width = slider.clientWidth, thumb = 16;
    const xs = new Set(lags.map((entry) => Math.round(thumb / 2 + (width - thumb) * entry / Math.max(last, 1))));
    part("ticks").innerHTML = [...xs].map((x) => lineTo(x, 0, x, 7, "lag-mark")).join("");
  };

  const drawAll = () => {
    if (!part("views").hidden) drawOverview(part("overview"), part("overview").clientWidth);
    draw();
    drawTicks();
  };

  const entryAt = (x) => {
    const box = part("chart").getBoundingClientRect();
    return Math.round(frame.begin + (x - box.left - frame.left) / frame.entry);
  };

  // ---- the brush of the overview: a drag shows what it spans, a click goes there

  let pressedAt = null;
  const overviewEntry = (event) => {
    const box = part("overview").getBoundingClientRect();
    return Math.min(Math.max((event.clientX - box.left) / box.width, 0), 1) * last;
  };
  part("overview").addEventListener("pointerdown", (event) => {
    pressedAt = { x: event.clientX, entry: overviewEntry(event) };
    part("overview").setPointerCapture(event.pointerId);
  });
  part("overview").addEventListener("pointermove", (event) => {
    if (!pressedAt || Math.abs(event.clientX - pressedAt.x) < 4) return;
    const ends = [pressedAt.entry, overviewEntry(event)].sort((one, other) => one - other);
    look(ends[0], ends[1] - ends[0]);
  });
  part("overview").addEventListener("pointerup", (event) => {
    if (pressedAt && Math.abs(event.clientX - pressedAt.x) < 4) show(Math.round(pressedAt.entry));
    else if (pressedAt && (now < range[0] || now > range[1])) show(range[0]);
    pressedAt = null;
  });

  // ---- Play

  const stop = () => {
    clearInterval(timer);
    timer = null;
    part("play").textContent = "Play";
  };
  const play = () => {
    if (timer) return stop();
    if (now === last) show(0);
    const step = Math.max(Math.round((range[1] - range[0]) / PLAYED), 1);
    part("play").textContent = "Pause";
    timer = setInterval(() => {
      show(now + step);
      if (now === last) stop();
    }, PACE);
  };

  // ---- tips

  const hideTip = () => {
    tip.hidden = true;
  };

  const showTip = (entry, box) => {
    tip.textContent = entry + ". " + textsOf(entry)[0];
    tip.hidden = false;
    const left = Math.min(box.left, document.documentElement.clientWidth - tip.offsetWidth - 8);
    const over = box.top - tip.offsetHeight - 6;
    tip.style.left = Math.max(left, 8) + window.scrollX + "px";
    tip.style.top = (over > 0 ? over : box.bottom + 6) + window.scrollY + "px";
  };
  const tipOf = (group) => showTip(entryOf(group), group.getBoundingClientRect());

  // ---- keys, the address, and the rest

  const fromHash = () => {
    const asked = Number(location.hash.slice(1));
    if (location.hash && Number.isInteger(asked)) show(asked);
  };

  const pressed = (event) => {
    if (event.altKey || event.ctrlKey || event.metaKey || event.shiftKey) return;
    if (event.key === "Escape") hideTip();
    const inStrips = event.target.closest && event.target.closest(".event");
    const steps = { ArrowLeft: now - 1, ArrowRight: now + 1 };
    if (inStrips) Object.assign(steps, { ArrowUp: now - 1, ArrowDown: now + 1, Home: 1, End: last,
      Enter: entryOf(inStrips), " ": entryOf(inStrips) });
    if (event.target === slider || !(event.key in steps)) return;
    event.preventDefault();
    show(steps[event.key]);
    if (inStrips) shownEvent().focus();
  };

  for (const group of events) {
    group.querySelector("title").remove();
    group.setAttribute("role", "button");
    group.setAttribute("aria-label", entryOf(group) + ". " + textsOf(entryOf(group))[0]);
    group.addEventListener("pointerenter", () => tipOf(group));
    group.addEventListener("pointerleave", hideTip);
    group.addEventListener("focus", () => tipOf(group));
    group.addEventListener("blur", hideTip);
    group.addEventListener("click", () => show(entryOf(group)));
  }
  part("chart").addEventListener("pointermove", (event) => {
    const entry = entryAt(event.clientX);
    if (entry < Math.max(frame.begin, 1) || entry > frame.end) return hideTip();
    showTip(entry, { left: event.clientX + 12, top: event.clientY - 8, bottom: event.clientY + 12 });
  });
  part("chart").addEventListener("pointerleave", hideTip);
  part("chart").addEventListener("click", (event) => {
    const entry = entryAt(event.clientX);
    if (entry >= frame.begin && entry <= frame.end) show(entry);
  });
  slider.addEventListener("input", () => show(Number(slider.value)));
  part("back").addEventListener("click", () => show(now - 1));
  part("on").addEventListener("click", () => show(now + 1));
  part("play").addEventListener("click", play);
  part("next-lag").addEventListener("click", () => show(lags[countTo(lags, now)]));
  part("next-lag").hidden = !lags.length;
  part("next-lag").textContent = isBroadcast ? "Next lag" : "Next skip";
  part("closer").addEventListener("click", () => zoom(1 / 2));
  part("farther").addEventListener("click", () => zoom(2));
  part("whole").addEventListener("click", () => look(0, last));
  document.addEventListener("keydown", pressed);
  window.addEventListener("hashchange", fromHash);
  window.addEventListener("resize", drawAll);
  part("views").hidden = last <= SHORT || !receivers.length;
  drawAll();
  show(data.lag);
  fromHash();
})();
