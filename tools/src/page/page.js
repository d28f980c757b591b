"use strict";
(() => {
  // Okabe and Ito's colours, dark enough on white; each series also has a dash and a mark of its own.
  const COLOURS = ["#0072b2", "#d55e00", "#009e73", "#cc79a7", "#e69f00", "#56b4e9", "#000000"];
  const DASHES = ["", "7 3", "2 3", "10 3 2 3", "5 2", "1 2", "12 4"];
  const MARKS = ["circle", "square", "triangle", "diamond", "cross"];
  const SVG = "http://www.w3.org/2000/svg";

  // Elements are made by name, and all text goes in as text.
  const add = (parent, name, attributes = {}, text) => {
    const space = parent.namespaceURI === SVG || name === "svg";
    const element = space ? document.createElementNS(SVG, name) : document.createElement(name);
    for (const [key, value] of Object.entries(attributes)) element.setAttribute(key, value);
    if (text !== undefined) element.textContent = text;
    parent.append(element);
    return element;
  };
  const place = (id) => {
    const element = document.getElementById(id);
    element.replaceChildren();
    return element;
  };
  const grouped = (number) => String(number).replace(/\B(?=(\d{3})+$)/g, ",");
  const counted = (number, what) => `${grouped(number)} ${what}${number === 1 ? "" : "s"}`;
  const seconds = (time) => (time === null ? "" : time.toFixed(3));
  const nodeOf = (row) => (row.source === undefined ? "" : row.source === 0 ? "anonymous" : row.source);
  const uptime = (time) => {
    const two = (number) => String(number).padStart(2, "0");
    const [hours, minutes] = [Math.floor(time / 3600), Math.floor(time / 60) % 60];
    return `${hours}:${two(minutes)}:${two(time % 60)}`;
  };

  // ---- tables ----

  const compare = (one, other) => {
    const empty = (value) => value === undefined || value === null || value === "";
    if (empty(one) || empty(other)) return empty(one) - empty(other);
    if (typeof one === "number" && typeof other === "number") return one - other;
    return String(one) < String(other) ? -1 : String(one) > String(other) ? 1 : 0;
  };

  // Tables by the ID of the element that they are in. A live page changes them in place, so that they stay sorted and scrolled as they were.
  const tables = new Map();
  const classOf = (column) => ["number", "short", "code"].filter((name) => column[name]).join(" ");

  const begin = (id, columns) => {
    const parent = document.getElementById(id);
    const element = add(add(parent, "div", { class: "scroll", id: `${id}_scroll` }), "table", { id: `${id}_table` });
    const head = add(add(element, "thead"), "tr");
    const made = { head, body: add(element, "tbody"), notes: add(parent, "div"), by: undefined };
    columns.forEach((column, index) => {
      const cell = add(head, "th", { scope: "col", class: classOf(column), "data-title": column.title });
      add(cell, "button", { type: "button", title: "sort" }, column.title).addEventListener("click", () => {
        made.by = { column: index, way: made.by && made.by.column === index ? -made.by.way : 1 };
        fill(made);
      });
    });
    tables.set(id, made);
    return made;
  };

  const fillRow = (line, columns, row) => {
    columns.forEach((column, index) => {
      const value = column.value(row) ?? "";
      const text = column.text ? column.text(row) : String(value);
      const cell = line.cells[index] ?? add(line, "td", { class: classOf(column) });
      if (cell.told !== text) cell.textContent = cell.told = text;
      if (cell.dataset.value !== String(value)) cell.dataset.value = value;
      if (column.bad) cell.classList.toggle("bad", column.bad(row));
    });
  };

  const fill = ({ head, body, by, columns, rows }) => {
    const ordered = [...rows];
    if (by) ordered.sort((one, other) => by.way * compare(columns[by.column].value(one), columns[by.column].value(other)));
    while (body.rows.length > ordered.length) body.deleteRow(-1);
    const lines = [...body.rows];
    ordered.forEach((row, index) => fillRow(lines[index] ?? add(body, "tr"), columns, row));
    [...head.children].forEach((cell, column) => {
      const way = by && by.column === column ? (by.way > 0 ? "ascending" : "descending") : "none";
      cell.setAttribute("aria-sort", way);
    });
  };

  // A column is a title, the value of a row, and perhaps its text and class. Notes are told under the table. A part that may be empty is hidden then.
  const table = (id, columns, rows, notes = []) => {
    const part = document.getElementById(`${id}_part`);
    if (part) part.hidden = rows.length === 0;
    const made = Object.assign(tables.get(id) ?? begin(id, columns), { columns, rows });
    fill(made);
    made.notes.replaceChildren();
    for (const note of notes) add(made.notes, "p", { class: "note" }, note);
  };
  const leftOut = (count, what) => (count > 0 ? [`${counted(count, what)} more, beyond what this page keeps`] : []);
  const number = (title, value, text) => ({ title, value, text: text ?? ((row) => (value(row) ?? "") === "" ? "" : grouped(value(row))), number: true });
  const time = (title, name) => ({ title, value: (row) => row[name], text: (row) => seconds(row[name] ?? null), number: true });
  const node = () => ({ title: "node", value: (row) => row.source, text: nodeOf, number: true });
  const plain = (title, name) => ({ title, value: (row) => row[name] });
  const short = (title, name) => ({ title, value: (row) => row[name], short: true });

  // ---- plots ----

  const steps = (low, high, most) => {
    const rough = (high - low) / most;
    const power = 10 ** Math.floor(Math.log10(rough));
    const step = power * [1, 2, 5, 10].find((factor) => power * factor >= rough);
    const first = Math.ceil(low / step);
    const count = Math.floor(high / step + 1e-9) - first + 1;
    return Array.from({ length: Math.max(0, Math.min(count, 2 * most)) }, (_, at) => Number(((first + at) * step).toPrecision(12)));
  };

  const mark = (parent, shape, x, y, colour) => {
    const paths = {
      circle: `M${x - 3.5} ${y}a3.5 3.5 0 1 0 7 0a3.5 3.5 0 1 0 -7 0z`,
      square: `M${x - 3} ${y - 3}h6v6h-6z`,
      triangle: `M${x} ${y - 4}l4 7h-8z`,
      diamond: `M${x} ${y - 4.5}l4 4.5l-4 4.5l-4 -4.5z`,
      cross: `M${x - 3.5} ${y - 3.5}l7 7m0 -7l-7 7`,
    };
    add(parent, "path", { class: "mark", d: paths[shape], stroke: colour });
  };
  const look = (index) => ({
    colour: COLOURS[index % COLOURS.length],
    dash: DASHES[index % DASHES.length],
    mark: MARKS[index % MARKS.length],
  });
  const [WIDTH, LEFT, RIGHT] = [1000, 60, 15];

  const [HEIGHT, TOP, BOTTOM] = [240, 22, 30];

  // The scales of a plot: where a time and a value are drawn. Points are [time, low, high].
  const scales = (points, zero) => {
    let [left, right] = [Math.min(...points.map((p) => p[0])), Math.max(...points.map((p) => p[0]))];
    let [low, high] = [Math.min(...points.map((p) => p[1])), Math.max(...points.map((p) => p[2]))];
    if (left === right) [left, right] = [left - 0.5, right + 0.5];
    const margin = high > low ? (high - low) * 0.08 : Math.max(Math.abs(high) * 0.05, 0.5);
    [low, high] = [zero ? 0 : low - margin, high + margin];
    const x = (value) => LEFT + ((value - left) / (right - left)) * (WIDTH - LEFT - RIGHT);
    const y = (value) => HEIGHT - BOTTOM - ((value - low) / (high - low)) * (HEIGHT - TOP - BOTTOM);
    return { left, right, low, high, x, y };
  };

  const timeAxis = (svg, from, to, start, bottom, most) => {
    const x = (value) => start + ((value - from) / (to - from)) * (WIDTH - start - RIGHT);
    for (const value of steps(from, to, most)) {
      add(svg, "path", { class: "axis", d: `M${x(value)} ${bottom}v4` });
      add(svg, "text", { x: x(value), y: bottom + 16, "text-anchor": "middle" }, String(value));
    }
    add(svg, "path", { class: "axis", d: `M${start} ${bottom}H${WIDTH - RIGHT}` });
  };

  const addSeries = (svg, one, style, { x, y }) => {
    const path = one.points.map(([at, from, to]) => `${x(at).toFixed(1)} ${y(from).toFixed(1)}` + (from === to ? "" : `L${x(at).toFixed(1)} ${y(to).toFixed(1)}`));
    add(svg, "path", { class: "series", d: `M${path.join("L")}`, stroke: style.colour, "stroke-dasharray": style.dash });
    const every = Math.max(1, Math.floor(one.points.length / 12));
    for (let at = 0; at < one.points.length; at += every) mark(svg, style.mark, x(one.points[at][0]), y(one.points[at][2]), style.colour);
  };

  const addLegend = (parent, series) => {
    const legend = add(parent, "ul", { class: "legend" });
    series.forEach((one, index) => {
      const item = add(legend, "li");
      const sample = add(item, "svg", { viewBox: "0 0 44 14", "aria-hidden": "true" });
      const style = look(index);
      add(sample, "path", { class: "series", d: "M2 7H42", stroke: style.colour, "stroke-dasharray": style.dash });
      mark(sample, style.mark, 22, 7, style.colour);
      add(item, "span", {}, ` ${one.name}`);
    });
  };

  // A series with no points is not drawn.
  const plot = (parent, label, series, unit) => {
    const points = series.flatMap((one) => one.points);
    const svg = add(parent, "svg", { viewBox: `0 0 ${WIDTH} ${HEIGHT}`, role: "img", "aria-label": label });
    if (points.length === 0) {
      add(svg, "text", { x: LEFT, y: HEIGHT / 2 }, "no values");
      return;
    }
    const scale = scales(points, unit.zero);
    for (const value of steps(scale.low, scale.high, 5)) {
      add(svg, "path", { class: "grid", d: `M${LEFT} ${scale.y(value)}H${WIDTH - RIGHT}` });
      add(svg, "text", { x: LEFT - 6, y: scale.y(value) + 4, "text-anchor": "end" }, String(value));
    }
    timeAxis(svg, scale.left, scale.right, LEFT, HEIGHT - BOTTOM, 10);
    add(svg, "path", { class: "axis", d: `M${LEFT} ${TOP}V${HEIGHT - BOTTOM}` });
    add(svg, "text", { x: 4, y: 10 }, unit.name);
    add(svg, "text", { x: WIDTH - RIGHT, y: HEIGHT - 2, "text-anchor": "end" }, "seconds");
    series.forEach((one, index) => {
      if (one.points.length > 0) addSeries(svg, one, look(index), scale);
    });
    if (series.length > 1 || series[0].name) addLegend(parent, series);
  };

  // ---- the parts of the page ----

  const drawSummary = (page) => {
    document.title = `${page.source} - Tecelume`;
    document.getElementById("source").textContent = page.source;
    const ears = page.own === null ? "heard by a receiver for each node that a service is for, and one for messages" : `heard as node ${page.own}`;
    document.getElementById("about").textContent = `Tecelume ${page.version}; ${ears}.`;
    const summary = place("summary");
    const item = (id, value, what) => {
      const entry = add(summary, "li");
      add(entry, "b", { id }, value);
      add(entry, "span", {}, ` ${what}`);
    };
    item("lines", grouped(page.lines), "lines or frames");
    item("transfers", grouped(page.transfers), "transfers");
    item("taken", grouped(page.taken), "frames before the last of their transfer");
    item("refused", grouped(page.refused), "refused");
    if (page.first !== null) item("span", `${seconds(page.first)} to ${seconds(page.last)}`, "s");
    const notes = place("notes");
    for (const note of page.notes) add(notes, "li", {}, note);
    page.interfaces.forEach((name, index) => {
      if (page.interfaces.length > 1) add(notes, "li", {}, `${name} is interface ${index}`);
    });
  };

  const drawNodes = (page) => {
    const columns = [
      { title: "ID", value: (row) => row.id, number: true },
      short("name", "name"),
      { ...short("health", "health"), bad: (row) => row.health !== undefined && row.health !== "OK" },
      short("mode", "mode"),
      number("uptime", (row) => row.uptime, (row) => (row.uptime === undefined ? "" : uptime(row.uptime))),
      number("status code", (row) => row.vendor_code),
      short("software", "software"),
      short("hardware", "hardware"),
      number("transfers", (row) => row.transfers),
      time("first", "first"),
      time("last", "last"),
      { title: "unique ID", value: (row) => row.unique_id, code: true },
    ];
    table("nodes", columns, page.nodes);
  };

  // A bar for each column that has transfers, taller for more of them.
  const bars = (columns, start, step, bottom, line) => {
    let [most, path] = [1, ""];
    for (let at = 1; at < columns.length; at += 2) most = Math.max(most, columns[at]);
    const wide = Math.max(0.8, step - 0.3).toFixed(1);
    for (let at = 0; at < columns.length; at += 2) {
      const tall = 4 + (line - 6) * (columns[at + 1] / most);
      path += `M${(start + columns[at] * step).toFixed(1)} ${bottom - 1}v${(-tall).toFixed(1)}h${wide}v${tall.toFixed(1)}z`;
    }
    return path;
  };

  // The rows of the time line that are drawn.
  const SHOWN = 150;
  const drawTimeline = (page) => {
    const parent = place("timeline");
    const { rows, origin, width } = page.timeline;
    const shown = rows.slice(0, SHOWN);
    const [gutter, line, top] = [250, 16, 4];
    const columns = Math.max(1, ...shown.map((row) => row.columns.at(-2) + 1));
    const svg = add(parent, "svg", { viewBox: `0 0 ${WIDTH} ${top + shown.length * line + 24}`, role: "img", "aria-label": "transfers by node and type over time" });
    const types = [...new Set(rows.map((row) => row.type))].sort();
    shown.forEach((row, index) => {
      const bottom = top + (index + 1) * line;
      if (index % 2) add(svg, "rect", { class: "band", x: 0, y: bottom - line, width: WIDTH, height: line });
      const label = `${nodeOf(row)}${row.destination === null ? "" : ` > ${row.destination}`}  ${row.type}`;
      add(svg, "text", { x: 4, y: bottom - 4 }, label.length > 40 ? `${label.slice(0, 39)}…` : label);
      const path = bars(row.columns, gutter, (WIDTH - gutter - RIGHT) / columns, bottom, line);
      const drawn = add(svg, "path", { d: path, fill: COLOURS[types.indexOf(row.type) % COLOURS.length] });
      add(drawn, "title", {}, `${label}: ${counted(row.count, "transfer")}`);
    });
    timeAxis(svg, origin, origin + columns * width, gutter, top + shown.length * line, 8);
    add(parent, "p", { class: "faint" }, `A bar is ${width} s, taller for more transfers; the time is in seconds.`);
    if (rows.length > shown.length) add(parent, "p", {}, `${counted(rows.length - shown.length, "row")} more are in the table.`);
  };

  const drawStreams = (page) => {
    const names = new Map(page.nodes.map((one) => [one.id, one.name]));
    const rate = (row) => (row.count > 1 && row.last > row.first ? (row.count - 1) / (row.last - row.first) : undefined);
    const columns = [
      node(),
      { title: "name", value: (row) => names.get(row.source), short: true },
      number("to", (row) => row.destination),
      short("type", "type"),
      number("transfers", (row) => row.count),
      time("first", "first"),
      time("last", "last"),
      number("a second", rate, (row) => rate(row)?.toFixed(2) ?? ""),
    ];
    table("streams", columns, page.timeline.rows, leftOut(page.timeline.beyond, "transfer"));
  };

  const drawLoad = (page) => {
    const parent = place("load_plot");
    const { origin, width, bit_rate: rate, interfaces } = page.load;
    const percent = (bits) => (bits / width / rate) * 100;
    const series = interfaces.map((one, index) => ({
      name: interfaces.length > 1 ? page.interfaces[index] ?? `interface ${index}` : "",
      points: one.bits.map((bits, at) => [origin + at * width, percent(bits), percent(bits)]),
    }));
    plot(parent, "bus load over time", series, { name: "% of the bus", zero: true });
    const span = width === 1 ? "one second" : `${width} seconds`;
    add(parent, "p", { class: "faint" }, `Each point is ${span}; bits with stuff bits and the space between frames, at ${grouped(rate)} bit/s (--bitrate).`);
    const rows = interfaces.flatMap((one, index) => one.frames.map((frames, at) => ({ interface: index, at: origin + at * width, frames, bits: one.bits[at] })));
    const columns = [
      number("from second", (row) => row.at),
      number("interface", (row) => row.interface),
      number("frames", (row) => row.frames),
      number("bits", (row) => row.bits),
      number("load, %", (row) => percent(row.bits), (row) => percent(row.bits).toFixed(2)),
    ];
    table("load", columns, rows);
  };

  const drawRefusals = (page) => {
    const columns = [number("number", (row) => row.number), plain("meaning", "sentence"), number("count", (row) => row.count)];
    table("numbers", columns, page.numbers, page.hints);
    const groups = [
      number("number", (row) => row.number),
      node(),
      number("to", (row) => row.destination),
      short("type", "type"),
      number("count", (row) => row.count),
      time("first", "first"),
      time("last", "last"),
      plain("meaning", "sentence"),
    ];
    for (const id of ["refusals", "not_read"]) table(id, groups, page[id], leftOut(page[`${id}_beyond`], "refusal"));
    table("left_out", [plain("reason", "reason"), number("count", (row) => row.count)], page.left_out);
  };

  // A battery tells its temperature in kelvin.
  const KELVIN = 273.15;
  const drawBatteries = (page) => {
    const parent = place("battery_plots");
    const series = (name, shift) => page.batteries.map((one) => ({
      name: `node ${one.node}, battery ${one.battery_id}`,
      points: one.time.map((at, index) => [at, one[name][index][0], one[name][index][1]]).filter((p) => p[1] !== null).map(([at, low, high]) => [at, low - shift, high - shift]),
    }));
    add(parent, "h3", {}, "Voltage");
    plot(parent, "battery voltage over time", series("voltage", 0), { name: "volt" });
    add(parent, "h3", {}, "Temperature");
    plot(parent, "battery temperature over time", series("temperature", KELVIN), { name: "°C" });
    const last = (row, name) => row[name].findLast((range) => range[1] !== null)?.[1];
    const celsius = (row) => {
      const kelvin = last(row, "temperature");
      return kelvin === undefined ? undefined : kelvin - KELVIN;
    };
    const columns = [
      number("node", (row) => row.node),
      number("battery", (row) => row.battery_id),
      plain("model", "model_name"),
      number("messages", (row) => row.count),
      number("last voltage, V", (row) => last(row, "voltage"), (row) => last(row, "voltage")?.toFixed(2) ?? ""),
      number("last temperature, °C", celsius, (row) => celsius(row)?.toFixed(2) ?? ""),
    ];
    table("batteries", columns, page.batteries, leftOut(page.batteries_beyond, "message"));
  };

  const drawMessages = (page) => {
    const logged = [time("time", "time"), number("node", (row) => row.node), short("level", "level"), plain("source", "source"), plain("text", "text")];
    const before = page.log_message_count - page.log_messages.length;
    table("log_messages", logged, page.log_messages, before > 0 ? [`${counted(before, "message")} before these`] : []);
    const keys = [
      number("node", (row) => row.node),
      plain("key", "key"),
      number("last value", (row) => row.value, (row) => (row.value === null ? "no number" : String(row.value))),
      number("messages", (row) => row.count),
      time("last", "last"),
    ];
    table("keys", keys, page.keys, leftOut(page.keys_beyond, "message"));
  };

  const draw = (page) => {
    for (const part of [drawSummary, drawNodes, drawTimeline, drawStreams, drawLoad, drawBatteries, drawMessages, drawRefusals]) part(page);
    document.documentElement.dataset.drawn = page.lines;
  };

  if (document.documentElement.dataset.live === undefined) {
    draw(JSON.parse(document.getElementById("data").textContent));
  } else {
    const events = new EventSource("events");
    events.addEventListener("message", (event) => draw(JSON.parse(event.data)));
    events.addEventListener("error", () => {
      document.getElementById("about").textContent = "The program does not answer; what is below is what it last said.";
    });
  }
})();
