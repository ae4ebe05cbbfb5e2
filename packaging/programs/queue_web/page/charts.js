// Sparklines and charts, drawn as SVG. A point without a value is null, and leaves a gap.
"use strict";

const SVG = "http://www.w3.org/2000/svg";

function svgElement(name, attributes) {
  const made = document.createElementNS(SVG, name);
  for (const key in attributes) made.setAttribute(key, attributes[key]);
  return made;
}

// Returns the runs of consecutive points without a gap, each as a list of [x, y] in a box of width and height.
function runs(values, most, width, height) {
  const found = [];
  let run = null;
  values.forEach((value, at) => {
    if (value === null) { run = null; return; }
    if (!run) found.push(run = []);
    const x = values.length > 1 ? at * width / (values.length - 1) : width;
    run.push([x.toFixed(1), (height - value * height / most).toFixed(1)]);
  });
  return found;
}

// Returns the two SVG paths of a line: the line itself, and the area below it.
function paths(values, most, width, height) {
  let line = "", area = "";
  for (const run of runs(values, most, width, height)) {
    const through = run.map(it => it.join(" ")).join("L");
    const last = run[run.length - 1][0];
    line += run.length > 1 ? "M" + through : "M" + through + "h1";
    area += "M" + run[0][0] + " " + height + "L" + through + "L" + last + " " + height + "Z";
  }
  return [line, area];
}

// Draws a line of these values into an SVG of this size.
function drawLine(svg, series, most, width, height) {
  svg.setAttribute("viewBox", `0 0 ${width} ${height}`);
  svg.setAttribute("preserveAspectRatio", "none");
  while (svg.childNodes.length < 2 * series.length) {
    svg.append(svgElement("path", {class: svg.childNodes.length % 2 ? "line" : "area"}));
  }
  series.forEach((it, at) => {
    const [line, area] = paths(it.values, most, width, height);
    const [under, over] = [svg.childNodes[2 * at], svg.childNodes[2 * at + 1]];
    under.setAttribute("d", area);
    over.setAttribute("d", line);
    under.style.fill = over.style.stroke = `var(--${it.colour})`;
  });
}

// Draws a sparkline: from 0 to its largest value, with room for the line's width.
function drawSpark(svg, values) {
  const most = Math.max(1, ...values.filter(it => it !== null));
  drawLine(svg, [{values, colour: "ready"}], most * 1.12, 120, 26);
}

// Returns the smallest round number that isn't below a value: 1, 2 or 5 followed by zeros.
function roundUp(value) {
  if (value <= 1) return 1;
  const unit = Math.pow(10, Math.floor(Math.log10(value)));
  return unit * [1, 2, 5, 10].find(it => it * unit >= value);
}

// A chart of one or two series over the last ten minutes. The pointer shows the values of a moment.
class Chart {
  constructor(series) {
    this.series = series;
    this.points = {};
    this.root = element("div", series.length > 1 ? "chart wide" : "chart");
    this.root.style.setProperty("--mark", `var(--${series[0].colour})`);
    const head = element("div", "head");
    this.values = series.map(it => {
      const label = element("span", "label", it.label);
      label.style.setProperty("--mark", `var(--${it.colour})`);
      const value = element("span", "value");
      head.append(value, label);
      return value;
    });
    this.plot = element("div", "plot");
    this.svg = svgElement("svg", {role: "img"});
    this.most = element("div", "most");
    this.cursor = element("div", "cursor");
    this.at = element("div", "at");
    this.cursor.hidden = this.at.hidden = true;
    this.plot.append(this.svg, this.most, this.cursor, this.at);
    const times = element("div", "times");
    times.append(element("span", "", "10 min ago"), element("span", "", "5 min"), element("span", "", "now"));
    this.root.append(head, this.plot, times);
    this.plot.addEventListener("pointermove", event => this.pointed(event));
    this.plot.addEventListener("pointerdown", event => this.pointed(event));
    this.plot.addEventListener("pointerleave", () => { this.cursor.hidden = this.at.hidden = true; });
  }

  draw(points, now, every) {
    this.points = points;
    this.every = every;
    const drawn = this.series.map(it => ({values: points[it.key] || [], colour: it.colour}));
    const most = roundUp(Math.max(0, ...drawn.flatMap(it => it.values).filter(it => it !== null)));
    drawLine(this.svg, drawn, most * 1.06, 600, 116);
    this.most.style.top = `${100 - 100 / 1.06}%`;
    setText(this.most, shortNumber(most));
    this.svg.setAttribute("aria-label", `The last ten minutes: ${this.series.map((it, at) => this.told(it, drawn[at].values, now)).join("; ")}`);
    this.series.forEach((it, at) => setText(this.values[at], it.isRate ? rate(now[it.key]) : number(now[it.key])));
  }

  // Returns a series in words.
  told(it, values, now) {
    const show = value => it.isRate ? rate(value) : number(value), known = values.filter(value => value !== null);
    return `${it.label} now ${show(now[it.key])}` + (known.length ? `, least ${show(Math.min(...known))}, most ${show(Math.max(...known))}` : "");
  }

  pointed(event) {
    const box = this.plot.getBoundingClientRect();
    const count = (this.points[this.series[0].key] || []).length;
    if (!count) return;
    const part = Math.min(1, Math.max(0, (event.clientX - box.left) / box.width));
    const index = Math.round(part * (count - 1));
    const told = this.series.map(it => {
      const value = this.points[it.key][index];
      return value === null ? "no value" : (it.isRate ? rate(value) : number(value)) + (this.series.length > 1 ? " " + it.label : "");
    });
    const seconds = Math.round((count - 1 - index) * this.every);
    setText(this.at, `${told.join(", ")} \u00b7 ${seconds ? duration(seconds) + " ago" : "now"}`);
    this.cursor.hidden = this.at.hidden = false;
    this.cursor.style.left = `${100 * index / (count - 1)}%`;
    const left = part * box.width + 8;
    this.at.style.left = `${Math.max(0, Math.min(left, box.width - this.at.offsetWidth - 2))}px`;
  }
}
