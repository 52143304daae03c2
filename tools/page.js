"use strict";
// A fan: its rows and the marks of its picture, found by the numbers of places and pieces, and the speed that was chosen.
class Fan {
  constructor(section) {
    this.section = section;
    this.number = Number(section.id.split("-")[1]);
    this.rows = Array.from(section.querySelectorAll("tbody tr"), (tr) => ({
      tr, place: tr.dataset.place, pieces: [tr.dataset.a, tr.dataset.b],
      low: Number(tr.dataset.low), high: Number(tr.dataset.high),
    }));
    this.at = new Map(this.rows.map((row) => [row.tr, row]));
    this.places = grouped(section.querySelectorAll(".picture [data-place]"), (mark) => mark.dataset.place);
    this.pieces = grouped(section.querySelectorAll(".picture [data-piece]"), (mark) => mark.dataset.piece);
    for (const name of section.querySelectorAll(".picture [data-pieces]")) {
      for (const piece of name.dataset.pieces.split(" ")) this.pieces.get(piece).push(name);
    }
    this.rowsAt = grouped(this.rows, (row) => row.place);
    this.table = section.querySelector(".table");
    [this.slider, this.speed, this.within] = ["slider", "speed", "within"].map((name) => section.querySelector(`.${name}`));
    this.on = new Set();
    this.hit = [];
    this.listen();
    this.show(null);
    this.section.querySelector(".controls").hidden = false;
    if (this.rows.length) this.button(this.rows[0]).tabIndex = 0;
  }

  button(row) {
    return row.tr.querySelector("button");
  }

  listen() {
    const { section, slider, speed, within } = this;
    slider.addEventListener("input", () => this.choose(slider.value));
    speed.addEventListener("input", () => this.choose(speed.value));
    within.addEventListener("input", () => this.choose(speed.value));
    section.querySelector(".all").addEventListener("click", () => this.choose(""));
    section.querySelector("form").addEventListener("submit", (event) => event.preventDefault());
    const body = section.querySelector("tbody"), picture = section.querySelector(".picture");
    body.addEventListener("mouseover", (event) => this.point(this.rowOf(event.target)));
    body.addEventListener("focusin", (event) => this.point(this.rowOf(event.target)));
    body.addEventListener("mouseleave", () => this.point(null));
    body.addEventListener("focusout", () => this.point(null));
    body.addEventListener("click", (event) => this.runAt(event.target.closest("button") && this.rowOf(event.target)));
    body.addEventListener("keydown", (event) => this.key(event));
    picture.addEventListener("mouseover", (event) => this.pointPlace(event.target.closest("[data-place]")));
    picture.addEventListener("mouseleave", () => this.point(null));
    picture.addEventListener("click", (event) => this.runAt(this.rowAt(event.target.closest("[data-place]"))));
  }

  rowOf(element) {
    return this.at.get(element.closest("tr"));
  }

  rowAt(mark) {
    return mark && this.rowsAt.get(mark.dataset.place)[0];
  }

  // Chooses a speed; an empty one is none. Once the hand rests, the page's name says it too.
  choose(value) {
    this.show(value === "" ? null : Number(value));
    clearTimeout(this.resting);
    this.resting = setTimeout(() => this.name(), 400);
  }

  name() {
    const parts = [`fan=${this.number}`];
    if (this.chosen !== null) parts.push(`speed=${this.chosen}`, `within=${this.reach()}`);
    history.replaceState(null, "", `#${parts.join("&")}`);
  }

  reach() {
    return Math.max(0, Number(this.within.value) || 0);
  }

  runAt(row) {
    if (row) this.choose(String(row.low));
  }

  // Marks what meets near the speed, and dims the rest; of no speed, neither.
  show(chosen) {
    this.chosen = chosen;
    if (chosen !== null) this.slider.value = chosen;
    if (this.speed.value !== String(chosen)) this.speed.value = chosen === null ? "" : chosen;
    const reach = this.reach();
    const rows = chosen === null ? [] : this.rows.filter((row) => row.low <= chosen + reach && row.high >= chosen - reach);
    const on = new Set();
    for (const row of rows) {
      on.add(row.tr);
      for (const mark of this.marks(row)) on.add(mark);
    }
    for (const mark of this.on) if (!on.has(mark)) mark.classList.remove("on");
    for (const mark of on) if (!this.on.has(mark)) mark.classList.add("on");
    this.on = on;
    this.section.classList.toggle("chosen", chosen !== null);
    this.line(chosen, reach);
    this.say(chosen, reach, rows);
    if (rows.length) this.reveal(rows[0]);
  }

  marks(row) {
    return [...(this.places.get(row.place) || []), ...row.pieces.flatMap((piece) => this.pieces.get(piece) || [])];
  }

  line(chosen, reach) {
    const picture = this.section.querySelector(".picture"), running = picture.querySelector(".running");
    running.setAttribute("visibility", chosen === null ? "hidden" : "visible");
    if (chosen === null) return;
    const [low, high, left, right] = ["low", "high", "left", "right"].map((name) => Number(picture.dataset[name]));
    const x = (speed) => left + ((Math.min(Math.max(speed, low), high) - low) / (high - low)) * (right - left);
    const [band, at] = running.children;
    band.setAttribute("x", x(chosen - reach));
    band.setAttribute("width", x(chosen + reach) - x(chosen - reach));
    for (const end of ["x1", "x2"]) at.setAttribute(end, x(chosen));
  }

  say(chosen, reach, rows) {
    const said = this.section.querySelector(".said"), { unit, read } = said.dataset;
    const where = `At ${chosen}${unit && ` ${unit}`}${reach ? `, give or take ${reach}` : ""}`;
    const most = 4;
    const told = rows.slice(0, most).map(({ tr }) => {
      const [, frequency, a, b] = Array.from(tr.cells, (cell) => cell.textContent);
      return `${frequency}${read && ` ${read}`} is ${a} or ${b}`;
    });
    if (rows.length > most) told.push(`and ${rows.length - most} more`);
    const none = "Choose a running speed, or click a ring or a row's speed, to see which tones are ambiguous there.";
    const some = rows.length ? `${where}: ${told.join("; ")}.` : `${where}, no two tones meet.`;
    said.textContent = chosen === null ? none : some;
  }

  // Marks one row, its place and its pieces; a place has several rows where several pairs meet at it.
  point(row) {
    this.strike(row ? [row.tr, ...this.marks(row)] : []);
  }

  pointPlace(mark) {
    const rows = mark ? this.rowsAt.get(mark.dataset.place) : [];
    this.strike(rows.flatMap((row) => [row.tr, ...this.marks(row)]));
    if (rows.length) this.reveal(rows[0]);
  }

  strike(marks) {
    for (const mark of this.hit) mark.classList.remove("hit");
    for (const mark of marks) mark.classList.add("hit");
    this.hit = marks;
  }

  // Scrolls the table, and never the page.
  reveal({ tr }) {
    const top = tr.offsetTop - this.table.querySelector("thead").offsetHeight;
    const { scrollTop, clientHeight } = this.table;
    const below = tr.offsetTop + tr.offsetHeight > scrollTop + clientHeight;
    if (top < scrollTop || below) this.table.scrollTop = top - clientHeight / 3;
  }

  key(event) {
    const at = this.rows.indexOf(this.rowOf(event.target)), last = this.rows.length - 1;
    const to = { ArrowDown: at + 1, ArrowUp: at - 1, Home: 0, End: last, PageDown: at + 10, PageUp: at - 10 }[event.key];
    if (to === undefined) return;
    event.preventDefault();
    const row = this.rows[Math.min(Math.max(to, 0), last)];
    this.button(this.rows[at]).tabIndex = -1;
    this.button(row).tabIndex = 0;
    this.button(row).focus();
  }
}

function grouped(things, key) {
  const groups = new Map();
  for (const thing of things) {
    const name = key(thing);
    if (!groups.has(name)) groups.set(name, []);
    groups.get(name).push(thing);
  }
  return groups;
}

// The row of fans: one of them shows.
function turnTo(fans, number) {
  for (const fan of fans) {
    const tab = document.getElementById(`tab-${fan.number}`), shown = fan.number === number;
    fan.section.hidden = !shown;
    tab.setAttribute("aria-selected", shown);
    tab.tabIndex = shown ? 0 : -1;
  }
}

function listenToTabs(fans) {
  const row = document.querySelector(".fans"), count = fans.length;
  row.addEventListener("click", (event) => {
    const tab = event.target.closest("button");
    if (tab) turnTo(fans, Number(tab.id.split("-")[1]));
  });
  row.addEventListener("keydown", (event) => {
    const at = Number(event.target.id.split("-")[1]);
    const to = { ArrowRight: (at + 1) % count, ArrowLeft: (at + count - 1) % count, Home: 0, End: count - 1 }[event.key];
    if (to === undefined) return;
    event.preventDefault();
    turnTo(fans, to);
    document.getElementById(`tab-${to}`).focus();
  });
  for (const fan of fans) fan.section.setAttribute("role", "tabpanel");
  for (const fan of fans) fan.section.setAttribute("aria-labelledby", `tab-${fan.number}`);
}

// What stands behind # in the page's name: which fan, at which speed, give or take how much.
function asked(fans) {
  const words = new URLSearchParams(location.hash.slice(1)), fan = fans[Number(words.get("fan")) || 0] || fans[0];
  if (fans.length > 1) turnTo(fans, fan.number);
  if (words.has("within")) fan.within.value = words.get("within");
  if (words.has("speed")) fan.show(Number(words.get("speed")));
}

const fans = Array.from(document.querySelectorAll(".fan"), (section) => new Fan(section));
if (fans.length > 1) listenToTabs(fans);
asked(fans);
addEventListener("hashchange", () => asked(fans));
