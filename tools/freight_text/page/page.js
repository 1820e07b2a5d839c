(() => {
  const all = (query, where = document) => [...where.querySelectorAll(query)];
  const listed = (it, key) => (it.dataset[key] || "").split(" ");
  const holds = (it, key, value) => !value || listed(it, key).includes(value);
  const form = document.querySelector(".filter"), drawn = document.querySelector(".drawn");
  if (!form) return;
  const box = drawn.querySelector(".chart"), state = form.querySelector(".state"), tools = document.querySelector(".tools");
  const rows = all("tr[data-show]"), departures = all(".departure"), ways = all(".way"), loads = all(".load");
  const items = all("[data-t]"), tables = all("main .rows"), parts = all(".part"), sheets = all("#terminals .sheet");
  const shown = (it) => !it.hasAttribute("hidden");
  let kept = null;

  // What a row or a line of the chart shows: "s3" is shipment 3, "l5" truck line 5 with the ways of all that it carries, "g" its truck lines.
  function lights(it) {
    const key = it.dataset.show[0], value = it.dataset.show.slice(1), lines = listed(it, "l");
    if (key === "s") return { ways: [value], line: (one) => holds(one, "s", value), row: (one) => holds(one, "s", value) };
    const line = (one) => lines.includes(one.dataset.l);
    return key === "l" ? { ways: listed(it, "s"), line, row: (one) => holds(one, "l", value) } : { ways: [], line, row: (one) => one === it };
  }

  function light(it) {
    const on = it ? lights(it) : { ways: [], line: () => false, row: () => false };
    for (const one of departures) one.classList.toggle("on", on.line(one));
    for (const one of ways) one.classList.toggle("on", on.ways.includes(one.dataset.way));
    for (const one of rows) one.classList.toggle("on", on.row(one));
    if (it) bringIntoSight(on.ways.length === 1 ? [ways[on.ways[0]]] : departures.filter(on.line));
  }

  // The chart alone is scrolled, not the page: to the left and upper end of some lines where they don't fit.
  function bringIntoSight(lines) {
    if (!lines.length || !drawn.open) return;
    const boxes = lines.map((it) => it.getBBox()), side = box.querySelector(".names").clientWidth;
    const left = Math.min(...boxes.map((it) => it.x)), right = Math.max(...boxes.map((it) => it.x + it.width));
    const high = Math.min(...boxes.map((it) => it.y)), low = Math.max(...boxes.map((it) => it.y + it.height));
    box.scrollLeft = within(box.scrollLeft, left - 20, right + side + 20 - box.clientWidth);
    box.scrollTop = within(box.scrollTop, high - 20, low + 60 - box.clientHeight);
  }

  function within(now, most, least) {
    return least > most ? most : Math.max(least, Math.min(now, most));
  }

  function keep(it) {
    kept = kept === it ? null : it;
    light(kept);
  }

  // One row of each table is a stop of the Tab key.
  function stops() {
    for (const it of tables) all("tr[data-show]", it).filter(shown).forEach((row, place) => { row.tabIndex = place ? -1 : 0; });
  }

  function filter() {
    const { part, t, s, l } = Object.fromEntries(new FormData(form)), some = Boolean(t || s || l);
    for (const it of items) it.toggleAttribute("hidden", !(holds(it, "t", t) && holds(it, "s", s) && holds(it, "l", l)));
    for (const it of loads) it.toggleAttribute("hidden", !shown(departures[it.dataset.load]));
    for (const it of tables) it.hidden = all("tr[data-t]", it).length > 0 && !all("tr[data-t]", it).some(shown);
    for (const it of sheets) it.hidden = !all(".rows", it).some(shown);
    for (const it of parts) it.hidden = Boolean(part) && it.id !== part;
    document.body.classList.toggle("partial", Boolean(part) && part !== "chart");
    drawn.classList.toggle("chosen", some);
    if (part === "chart" || some && drawn.classList.contains("many")) drawn.open = true;
    if (some) bringIntoSight(departures.filter(shown));
    kept = s ? rows.find((it) => it.dataset.show === `s${s}`) : null;
    light(kept);
    state.classList.toggle("narrow", some || Boolean(part));
    state.textContent = words(some);
    stops();
  }

  function words(some) {
    const chosen = all("select", form).filter((it) => it.value).map((it) => `${it.labels[0].firstChild.data.trim()}: ${it.selectedOptions[0].text}`);
    const count = (them) => `${them.filter(shown).length} of ${them.length}`;
    const counts = some ? ` ${count(all("#shipments tr[data-show]"))} shipments, ${count(departures)} departures.` : "";
    return chosen.length ? `${chosen.join(", ")}.${counts}` : "";
  }

  function step(row, key) {
    const own = all("tr[data-show]", row.parentNode).filter(shown), place = own.indexOf(row);
    return { ArrowDown: own[place + 1], ArrowUp: own[place - 1], Home: own[0], End: own[own.length - 1] }[key];
  }

  // Enter goes where a row's link leads, and keeps what a row without one shows.
  function enter(row) {
    const link = row.querySelector("a");
    if (link) link.click();
    else keep(row);
  }

  document.addEventListener("keydown", (event) => {
    if (event.key === "Escape") { kept = null; light(null); }
    const row = event.target;
    if (!row.matches("tr[data-show]")) return;
    const next = step(row, event.key);
    if (event.key === "Enter") enter(row);
    else if (event.key === " ") keep(row);
    else if (next) { row.tabIndex = -1; next.tabIndex = 0; next.focus(); }
    else return;
    event.preventDefault();
  });
  document.addEventListener("focusin", (event) => { if (!kept && event.target.matches("tr[data-show]")) light(event.target); });
  document.addEventListener("focusout", (event) => { if (!kept && event.target.matches("tr[data-show]")) light(null); });
  for (const it of [...rows, ...departures]) it.addEventListener("click", (event) => { if (!event.target.closest("a")) keep(it); });
  // A link to a part that isn't shown, since another one is chosen, chooses it.
  for (const it of all("nav a")) it.addEventListener("click", () => { if (form.elements.part.value) { form.elements.part.value = it.hash.slice(1); filter(); } });
  form.addEventListener("change", filter);
  form.addEventListener("reset", () => setTimeout(filter));
  form.addEventListener("submit", (event) => event.preventDefault());

  const measure = () => {
    const high = getComputedStyle(tools).position === "sticky" ? tools.offsetHeight : 0;
    document.documentElement.style.setProperty("--top", `${high}px`);
  };
  new ResizeObserver(measure).observe(tools);
  for (const it of all("tr a")) it.tabIndex = -1;
  document.documentElement.classList.add("scripted");
  form.hidden = false;
  filter();
})();
