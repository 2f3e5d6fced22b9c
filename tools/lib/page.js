"use strict";
// The search: shows the rows of the index that have all words.
(function () {
  const box = document.getElementById("search"), told = document.getElementById("found");
  const bodies = Array.from(document.querySelectorAll(".index tbody"), (body) => ({ body, rows: Array.from(body.rows) }));
  const rows = bodies.flatMap((one) => one.rows);
  function search() {
    const words = box.value.toLowerCase().split(/\s+/).filter(Boolean);
    let count = 0;
    for (const one of bodies) {
      let shown = 0;
      for (const row of one.rows) {
        row.hidden = !words.every((word) => row.dataset.words.includes(word));
        shown += row.hidden ? 0 : 1;
      }
      one.body.hidden = !shown;
      one.body.style.setProperty("--count", shown);
      count += shown;
    }
    told.textContent = words.length ? count + " of " + rows.length + " classes" : rows.length + " classes";
  }
  box.addEventListener("input", search);
  box.addEventListener("keydown", (event) => {
    const first = rows.find((row) => !row.hidden);
    if (event.key === "Enter" && first) { location.hash = first.querySelector("a").hash; }
  });
  search();
})();

// The time line: what the moments before one have changed is the state of its object.
const timeLines = Array.from(document.querySelectorAll(".run[data-front]")).map((run) => {
  const front = run.dataset.front, data = JSON.parse(run.querySelector(".data").textContent), moments = data.moments;
  const range = run.querySelector("input"), names = data.phases;
  let at = 0;

  function state(number) {
    const found = { phases: {}, pointers: {}, object: 0 };
    for (const moment of moments.slice(0, number + 1)) { found.object = moment.object || found.object; }
    for (const moment of moments.slice(0, number + 1)) {
      if (moment.object === found.object) { Object.assign(found.phases, moment.phases); Object.assign(found.pointers, moment.pointers); }
    }
    return found;
  }

  function showObject(stage, found, moment) {
    for (const part of stage.querySelectorAll("[data-part]")) {
      const phase = found.phases[part.dataset.part] || "raw";
      if (part.tagName === "tr" || part.tagName === "TR") {
        const cell = part.querySelector(".phase");
        cell.className = "phase " + phase;
        cell.textContent = names[phase];
      } else {
        const text = part.querySelector("text"), width = part.querySelector("rect").getAttribute("width");
        const whole = text.dataset.name + ": " + names[phase];
        part.setAttribute("class", "part " + phase);
        text.textContent = whole.length * 7.3 + 8 < width ? whole : text.dataset.name.length * 7.3 + 6 < width ? text.dataset.name : "";
      }
    }
    for (const pointer of stage.querySelectorAll("[data-place]")) {
      const place = pointer.dataset.place, text = found.pointers[place] || "", leads = pointer.querySelector(".leads");
      if (pointer.tagName === "tr" || pointer.tagName === "TR") {
        leads.textContent = text ? "" : "not set";
        if (text) {
          const link = document.createElement("a");
          link.href = "#" + data.links[text];
          link.textContent = text;
          leads.append(link);
        }
      } else {
        const changed = text && place in moment.pointers, read = moment.places.includes(Number(place));
        pointer.setAttribute("class", "pointer" + (text ? "" : " unset") + (changed ? " changed" : "") + (read ? " read" : ""));
        leads.textContent = text || "not set";
      }
    }
  }

  function show(number) {
    at = Math.max(0, Math.min(moments.length - 1, number));
    const moment = moments[at], found = state(at);
    const of = data.objects.find((one) => one.number === found.object);
    for (const stage of run.querySelectorAll(".stage")) {
      stage.hidden = !of || stage.dataset.class !== of.class;
      if (!stage.hidden) { showObject(stage, found, moment); }
    }
    range.value = at + 1;
    run.querySelector(".count").textContent = at + 1 + " of " + moments.length;
    run.querySelector(".now").textContent = (moment.line ? "Line " + moment.line + ": " : "") + (moment.sort === "printed" ? "prints " : "") + moment.text + (moment.said ? ". " + moment.said[0].toUpperCase() + moment.said.slice(1) : "") + ".";
    for (const one of run.querySelectorAll("[aria-current]")) { one.removeAttribute("aria-current"); }
    document.getElementById(front + "moment-" + (at + 1)).setAttribute("aria-current", "step");
    const line = document.getElementById(front + "line-" + moment.line);
    if (line) {
      line.setAttribute("aria-current", "true");
      const source = line.closest(".source");
      source.scrollTop += line.getBoundingClientRect().top - source.getBoundingClientRect().top - 60;
    }
  }

  run.addEventListener("click", (event) => {
    const go = event.target.dataset.go, to = { first: 0, back: at - 1, forward: at + 1, last: moments.length - 1 };
    if (go) { show(to[go]); } else if (event.target.dataset.moment) { show(Number(event.target.dataset.moment) - 1); }
  });
  range.addEventListener("input", () => show(Number(range.value) - 1));
  const asked = location.hash.match(new RegExp("^#" + front + "run-(\\d+)$"));
  if (moments.length) { show(asked ? Number(asked[1]) - 1 : 0); }
  if (asked) { run.scrollIntoView(); }
  return { run, step: (key) => show({ ArrowLeft: at - 1, ArrowRight: at + 1, Home: 0, End: moments.length - 1 }[key]), at: () => at + 1 };
});
document.addEventListener("keydown", (event) => {
  if (!["ArrowLeft", "ArrowRight", "Home", "End"].includes(event.key) || (event.target instanceof Element && event.target.matches("input, textarea, select")) || event.ctrlKey || event.altKey || event.metaKey) { return; }
  const seen = timeLines.find((one) => event.target instanceof Element && one.run.contains(event.target)) || timeLines.find((one) => { const box = one.run.getBoundingClientRect(); return box.top < innerHeight && box.bottom > 0; });
  if (seen) { event.preventDefault(); seen.step(event.key); }
});
