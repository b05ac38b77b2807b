// The page at work: what is chosen, how the view moves, and when the picture is drawn anew.

const element = (id) => document.getElementById(id);
const MOST_OFFSET = 2 ** 24, SLIDER_STEPS = 1000, FRAME_TIME = 700;

// The finite ends of an axis for a picture: an infinite one becomes ten beyond the other end or beyond 0.
function finiteEnds(tree, low, high) {
  const ten = rational(10n), zero = rational(0n);
  const top = tree.isFinite(high) ? tree.rational(high) : null, bottom = tree.isFinite(low) ? tree.rational(low) : null;
  const lower = bottom || minus(top && isBelow(top, zero) ? top : zero, ten);
  const upper = top || plus(bottom && isBelow(zero, bottom) ? bottom : zero, ten);
  return [lower, upper];
}

// The hull of what is kept, as places of numbers; null where nothing is.
function hullOfKept(tree) {
  let hull = null;
  const waiting = [[0, tree.root]];
  while (waiting.length) {
    const [node, box] = waiting.pop();
    if (!(tree.below[node] & ~REMOVED)) continue;
    const to = tree.contracted(node, box);
    if (hull && to.every((end, k) => isWithin(tree, end, hull[k], k % 2))) continue;
    if (tree.codes[node] >= FIRST_CUT) {
      for (const half of tree.halves(node, to)) waiting.push([half.node, half.box]);
    } else {
      hull = hull ? hull.map((end, k) => (isWithin(tree, to[k], end, k % 2) ? end : to[k])) : to;
    }
  }
  return hull;
}

const isWithin = (tree, end, bound, side) => (side ? -1 : 1) * tree.compare(end, tree.pair(bound)) >= 0;

class App {
  constructor(about, trees) {
    const dims = about.names.length;
    Object.assign(this, { about, trees, x: 0, y: Math.min(1, dims - 1), layout: "one", frame: 0, panes: [] });
    Object.assign(this, { pinned: null, pointed: null, before: null });
    this.way = about.path ? about.path.map((point) => point.map((word) => pairNear(parsed(word)))) : null;
    this.wayStart = null;
    this.constraints = constraintsOf(about.canonical);
    this.mode = dims > 3 ? "projection" : "slice";
    this.levels = about.names.map((_, k) => coordinate(this.middle(k)));
    this.isDark = matchMedia("(prefers-color-scheme: dark)").matches;
    this.isEqual = this.hasLikeDomains();
    this.timer = null;
    this.frameAsked = false;
  }

  get palette() {
    return PALETTES[this.isDark ? "dark" : "light"];
  }

  get tree() {
    return this.trees[this.frame];
  }

  ends(variable) {
    return finiteEnds(this.trees[0], 2 * variable, 2 * variable + 1);
  }

  middle(variable) {
    const [low, high] = this.ends(variable), sum = plus(low, high);
    return rational(sum.n, 2n * sum.d);
  }

  // Scales are equal at first where the domains are of one size.
  hasLikeDomains() {
    const [a, b] = [this.x, this.y].map((k) => nearFloat(minus(...this.ends(k).reverse())));
    return a <= 3 * b && b <= 3 * a;
  }

  // The levels of the other variables; null for the projection.
  shownLevels() {
    if (this.mode === "projection" && this.levels.length > 2) return null;
    return this.levels.map((level, k) => (k === this.x || k === this.y ? null : level));
  }

  // ---- panes

  buildPanes() {
    const stage = element("stage"), names = this.about.pavings.map((paving) => paving.name);
    stage.replaceChildren();
    const shown = { one: [[this.frame]], side: names.map((_, k) => [k]), over: [names.map((_, k) => k)] }[this.layout];
    this.panes = shown.map((layers) => {
      const pane = new Pane(stage, names.length > 1 ? layers.map((k) => names[k]).join(" over ") : "");
      pane.layers = layers.map((k) => ({ tree: this.trees[k], bits: null }));
      return pane;
    });
    this.resize();
  }

  // Gives the panes their sizes; what was in the middle stays there.
  resize() {
    for (const pane of this.panes) pane.resize(window.devicePixelRatio || 1);
    const { width, height } = this.panes[0], before = this.size;
    this.size = { width, height };
    if (!before) {
      this.showWhole();
      return;
    }
    this.axes.x.offset -= Math.round((width - before.width) / 2);
    this.axes.y.offset -= Math.round((height - before.height) / 2);
    this.redraw();
  }

  showFrame(frame) {
    this.frame = frame;
    if (this.layout === "one") {
      this.panes[0].show([this.tree]);
      this.panes[0].caption.textContent = this.about.pavings.length > 1 ? this.about.pavings[frame].name : "";
    }
    const { counts } = this.about.pavings[frame];
    element("frame").value = frame;
    element("shown").textContent = `${frame + 1} of ${this.trees.length}: ${counts.settled} settled, ${counts.open} open`;
    Object.assign(this, { pinned: null, pointed: null, before: null });
    this.redraw();
  }

  // ---- the view

  showWhole() {
    this.showEnds(this.ends(this.x), this.ends(this.y));
  }

  showKept() {
    const hull = hullOfKept(this.tree);
    if (!hull) return;
    const [x, y] = [this.x, this.y].map((k) => finiteEnds(this.tree, hull[2 * k], hull[2 * k + 1]));
    this.showEnds(x, y);
  }

  showEnds(x, y) {
    const { width, height } = this.panes[0];
    const scales = [[x, width], [y, height]].map(([[low, high], pixels]) => nearFloat(minus(high, low)) / (pixels * 0.94));
    const least = Math.max(...scales) || 1 / width;
    const [across, up] = this.isEqual ? [least, least] : scales.map((scale) => scale || least);
    const half = (ends) => { const sum = plus(...ends); return pairNear(rational(sum.n, 2n * sum.d)); };
    this.axes = {
      x: new Axis(this.x, half(x), this.bounded(across, x), -Math.round(width / 2), 1),
      y: new Axis(this.y, half(y), this.bounded(up, y), -Math.round(height / 2), -1),
    };
    this.redraw();
  }

  // A pixel's width within what can be told apart: a number's last place is at most some hundred pixels wide.
  bounded(scale, [low, high]) {
    const far = Math.max(Math.abs(nearFloat(low)), Math.abs(nearFloat(high)));
    return Math.min(2 ** 500, Math.max(scale, 2 ** -519, far * 2 ** -69));
  }

  zoom(factor, column, row) {
    const { x, y } = this.axes, places = [[x, column], [y, row]].map(([axis, pixel]) => axis.value(Math.round(pixel)));
    const scales = [x, y].map((axis, k) => this.bounded(axis.scale * factor, [places[k], places[k]]));
    if (this.isEqual) scales.fill(Math.max(...scales));
    this.axes = {
      x: new Axis(x.variable, pairNear(places[0]), scales[0], -Math.round(column), 1),
      y: new Axis(y.variable, pairNear(places[1]), scales[1], -Math.round(row), -1),
    };
    this.redraw();
  }

  pan(across, down) {
    const { x, y } = this.axes;
    x.offset -= across;
    y.offset -= down;
    if (Math.max(Math.abs(x.offset), Math.abs(y.offset)) > MOST_OFFSET) this.zoom(1, 0, 0);
    const move = this.move || { x: 0, y: 0 };
    this.move = { x: move.x + across, y: move.y + down };
    this.ask();
  }

  // Puts a point in the middle; `width` is a span of values that is to be seen around it.
  goTo(point, spans) {
    const ends = [this.x, this.y].map((k, at) => {
      const half = times(spans[at], rational(1n, 2n));
      return [minus(point[k], half), plus(point[k], half)];
    });
    this.showEnds(...ends);
  }

  // ---- drawing

  redraw() {
    this.isStale = true;
    this.ask();
  }

  ask() {
    if (this.frameAsked) return;
    this.frameAsked = true;
    requestAnimationFrame(() => this.draw());
  }

  // What the colours mean; of open leaves nothing is said where no paving has one.
  legend() {
    const lines = LEGENDS[this.shownLevels() ? "slice" : "projection"];
    const all = this.layout === "over" ? [...lines, ...LEGENDS.over] : lines;
    return this.about.pavings.some(({ counts }) => counts.open) ? all : all.filter(([name]) => name !== "open");
  }

  how() {
    const { names } = this.about;
    return {
      palette: this.palette,
      names: { x: names[this.x], y: names.length > 1 ? names[this.y] : "" },
      edges: element("edges").checked,
      pinned: this.pinned,
      pointed: this.pointed,
      way: this.way,
      legend: this.legend(),
    };
  }

  draw() {
    const begun = performance.now(), levels = this.shownLevels(), how = this.how();
    this.frameAsked = false;
    for (const pane of this.panes) {
      pane.paint(this.axes, levels, this.isStale ? null : this.move, this.palette);
      pane.decorate(this.axes, levels, how);
    }
    this.isStale = false;
    this.move = null;
    this.lastDraw = performance.now() - begun;
    this.drawn = (this.drawn || 0) + 1;
  }

  // ---- boxes

  pointAt(column, row) {
    const half = rational(1n, 2n), { x, y } = this.axes;
    const place = (axis, pixel) => coordinate(plus(axis.value(pixel),
      times(times(ofFloat(axis.scale), half), rational(BigInt(axis.sign)))));
    const point = this.shownLevels() || this.levels.map(() => null);
    return point.map((level, k) => (k === this.x ? place(x, column) : k === this.y ? place(y, row) : level));
  }

  found(tree, point) {
    if (point.some((level) => !level)) {
      const seen = over(tree, point);
      return { found: seen.top, seen };
    }
    return { found: locate(tree, point), seen: null };
  }

  showBox(tree, { found, seen }, isPinned) {
    const host = element("box");
    const own = this.trees.length > 1 ? `, in ${tree.about.name}` : "";
    element("which").textContent = (isPinned ? "— kept; Escape lets it go" : "— under the pointer") + own;
    if (!found) {
      const words = seen && !seen.top ? "removed: no box lies over this place" : "outside the search box";
      host.replaceChildren(made("p", words, "faint"));
      return;
    }
    const facts = boxFacts(this.about, tree, found, this.constraints, this.palette);
    if (seen) facts.unshift(overFacts(seen));
    if (isPinned && this.before) facts.splice(1, 0, backFacts(this.before, () => this.pin(tree, this.before)));
    if (isPinned && !found.isMargin) {
      facts.push(nearFacts(tree, this.about.names, found, this.palette, this.nearDoes(tree, found)));
    }
    host.replaceChildren(...facts);
  }

  // What a neighbour's line does: a click goes there, and the way back stays; pointing at it frames it.
  nearDoes(tree, found) {
    return {
      choose: (leaf) => this.pin(tree, leaf, null, found),
      point: (leaf) => { this.pointed = leaf && { tree, found: leaf }; this.ask(); },
    };
  }

  pin(tree, found, seen = null, before = null) {
    Object.assign(this, { pinned: found ? { tree, found } : null, pointed: null, before });
    this.showBox(tree, { found, seen }, Boolean(found));
    this.ask();
  }

  // The clicks for a path: every other one asks for it.
  clickWay(tree, point) {
    const says = element("said");
    if (point.some((level) => !level)) {
      says.textContent = "A path is asked for in a slice, not in the projection.";
      return;
    }
    const [start, goal] = this.wayStart ? [this.wayStart, point] : [point, null];
    [says.textContent, this.way] = answerOfClicks(tree, start, goal, this.about.names);
    this.wayStart = goal ? null : start;
    this.ask();
  }

  // Finds a point that was typed, and shows it.
  search(text) {
    const words = text.split(/[\s,;]+/).filter(Boolean), { names } = this.about, numbers = words.map(parsed);
    if (words.length !== names.length || numbers.includes(null)) {
      return `${names.length} numbers are expected, of ${names.join(", ")}: as 0.5, 1/3, 1e-3 or 5:-3`;
    }
    const point = numbers.map(coordinate), tree = this.tree, found = locate(tree, point);
    if (!found) return "The point lies outside the search box.";
    this.setLevels(point);
    if (!this.isSeen(numbers)) this.goTo(numbers, [this.axes.x, this.axes.y].map((axis, k) =>
      times(ofFloat(axis.scale), rational(BigInt([this.panes[0].width, this.panes[0].height][k])))));
    this.redraw();
    this.pin(tree, found);
    return `The point lies in a part that is ${kindText(found)}.`;
  }

  isSeen(numbers) {
    return [[this.axes.x, this.panes[0].width], [this.axes.y, this.panes[0].height]].every(([axis, pixels]) => {
      const pair = pairNear(numbers[axis.variable]), pixel = axis.pixel(pair.high, pair.low);
      return pixel >= 0 && pixel < pixels;
    });
  }

  setLevels(point) {
    this.levels = point;
    showLevels(this);
  }

  // ---- pictures

  svgText() {
    return svgOf(this.panes, this.axes, this.shownLevels(), this.how(), this.about.title);
  }

  pngBlob() {
    return pngOf(this.panes, this.how().legend, this.palette);
  }
}

// ---- controls

function showLevels(app) {
  const others = app.about.names.map((_, k) => k).filter((k) => k !== app.x && k !== app.y);
  element("levels").replaceChildren(...(app.shownLevels() ? others : []).map((k) => levelLine(app, k)));
}

// A variable's slider and its number; what the number says is what is shown, exactly.
function levelLine(app, variable) {
  const line = made("div", null, "level"), slider = made("input"), field = made("input"), [low, high] = app.ends(variable);
  Object.assign(slider, { type: "range", min: 0, max: SLIDER_STEPS });
  Object.assign(field, { type: "text", value: levelText(app.levels[variable].value) });
  const span = minus(high, low), ratio = quotient(minus(app.levels[variable].value, low), span.n ? span : rational(1n));
  slider.value = Math.round(nearFloat(ratio) * SLIDER_STEPS);
  slider.setAttribute("aria-label", app.about.names[variable]);
  field.setAttribute("aria-label", `${app.about.names[variable]}, its number`);
  slider.addEventListener("input", () => {
    const step = plus(low, times(span, rational(BigInt(slider.value), BigInt(SLIDER_STEPS))));
    field.value = levelText(step);
    takeLevel(app, variable, field);
  });
  field.addEventListener("change", () => takeLevel(app, variable, field));
  line.append(made("span", app.about.names[variable]), slider, field);
  return line;
}

const levelText = (value) => decimal(value, false, 7);

function takeLevel(app, variable, field) {
  const value = parsed(field.value);
  field.classList.toggle("bad", value === null);
  if (value === null) return;
  app.levels[variable] = coordinate(value);
  app.redraw();
}

function showControls(app) {
  const names = app.about.names, options = () => names.map((name, k) => Object.assign(made("option", name), { value: k }));
  element("x").replaceChildren(...options());
  element("y").replaceChildren(...options());
  element("modes").hidden = names.length < 3;
  element("y").parentElement.hidden = names.length < 2;
  element("point").placeholder = names.join(", ");
  element("pavings").hidden = app.trees.length < 2;
  element("frame").max = app.trees.length - 1;
  element("title").textContent = app.about.title;
  element("question").textContent = questionOf(app.about.source);
  showFacts(element("facts"), app.about);
  showChoices(app);
}

function showChoices(app) {
  element("x").value = app.x;
  element("y").value = app.y;
  element("equal").checked = app.isEqual;
  for (const radio of document.getElementsByName("mode")) radio.checked = radio.value === app.mode;
  element("order").textContent = app.about.names.length < 3 ? "" : PAINT_ORDER[app.mode];
  element("film").hidden = element("shown").hidden = app.layout !== "one";
  element("theme").textContent = app.isDark ? "☀" : "☾";
  document.documentElement.classList.toggle("dark", app.isDark);
  showLegend(element("legend"), app.how().legend, app.palette);
  showLevels(app);
}

function chooseAxis(app, own, other, variable) {
  if (app[other] === variable) app[other] = app[own];
  app[own] = variable;
  showChoices(app);
  app.showWhole();
}

function chooseLayout(app, layout) {
  if (app.timer) play(app);
  app.layout = layout;
  app.buildPanes();
  showChoices(app);
}

function play(app) {
  clearInterval(app.timer);
  app.timer = app.timer ? null : setInterval(() => app.showFrame((app.frame + 1) % app.trees.length), FRAME_TIME);
  element("play").textContent = app.timer ? "❚❚" : "▶";
}

function listenToControls(app) {
  const on = (id, event, work) => element(id).addEventListener(event, work), middle = () => app.panes[0];
  on("x", "change", () => chooseAxis(app, "x", "y", Number(element("x").value)));
  on("y", "change", () => chooseAxis(app, "y", "x", Number(element("y").value)));
  on("equal", "change", () => { app.isEqual = element("equal").checked; app.showWhole(); });
  on("edges", "change", () => app.redraw());
  on("whole", "click", () => app.showWhole());
  on("near", "click", () => app.showKept());
  on("closer", "click", () => app.zoom(0.5, middle().width / 2, middle().height / 2));
  on("farther", "click", () => app.zoom(2, middle().width / 2, middle().height / 2));
  on("theme", "click", () => { app.isDark = !app.isDark; showChoices(app); app.redraw(); });
  on("layout", "change", () => chooseLayout(app, element("layout").value));
  on("frame", "input", () => app.showFrame(Number(element("frame").value)));
  on("play", "click", () => play(app));
  on("search", "submit", (event) => {
    event.preventDefault();
    element("answer").textContent = app.search(element("point").value);
  });
  on("svg", "click", () => download(new Blob([app.svgText()], { type: "image/svg+xml" }), `${app.about.title}.svg`));
  on("png", "click", async () => download(await app.pngBlob(), `${app.about.title}.png`));
  for (const radio of document.getElementsByName("mode")) {
    radio.addEventListener("change", () => { app.mode = radio.value; showChoices(app); app.redraw(); });
  }
}

// The pane and the pixel of an event; null outside the cells.
function placeOf(app, event) {
  const pane = app.panes.find((one) => one.cells === event.target);
  if (!pane) return null;
  const box = pane.cells.getBoundingClientRect(), pixel = (length) => Math.floor(length * pane.ratio);
  return { pane, column: pixel(event.clientX - box.left), row: pixel(event.clientY - box.top) };
}

function listenToPointer(app) {
  const stage = element("stage");
  let held = null;
  stage.addEventListener("wheel", (event) => {
    const place = placeOf(app, event);
    event.preventDefault();
    if (place) app.zoom(2 ** (Math.max(-240, Math.min(240, event.deltaY)) / 240), place.column, place.row);
  }, { passive: false });
  stage.addEventListener("pointerdown", (event) => {
    held = placeOf(app, event) && { x: event.clientX, y: event.clientY, moved: false };
    if (held) event.target.setPointerCapture(event.pointerId);
  });
  stage.addEventListener("pointermove", (event) => {
    if (held) held = dragged(app, held, event);
    else hover(app, event);
  });
  stage.addEventListener("pointerup", (event) => {
    if (held && !held.moved) keep(app, event);
    held = null;
  });
}

function dragged(app, held, event) {
  const { ratio } = app.panes[0];
  const x = Math.round((event.clientX - held.x) * ratio), y = Math.round((event.clientY - held.y) * ratio);
  if (!held.moved && Math.hypot(x, y) < 4 * ratio) return held;
  app.pan(x, y);
  return { x: held.x + x / ratio, y: held.y + y / ratio, moved: true };
}

function hover(app, event) {
  const place = placeOf(app, event);
  if (!place || app.pinned) return;
  const { tree } = place.pane.layers[0];
  app.showBox(tree, app.found(tree, app.pointAt(place.column, place.row)), false);
}

function keep(app, event) {
  const place = placeOf(app, event);
  if (!place) return;
  const { tree } = place.pane.layers[0], point = app.pointAt(place.column, place.row), { found, seen } = app.found(tree, point);
  if (element("way").checked) app.clickWay(tree, point);
  else app.pin(tree, found, seen);
}

function listenToKeys(app) {
  const step = () => Math.round(60 * app.panes[0].ratio);
  const keys = {
    ArrowLeft: () => app.pan(step(), 0), ArrowRight: () => app.pan(-step(), 0), ArrowUp: () => app.pan(0, step()),
    ArrowDown: () => app.pan(0, -step()), "+": () => element("closer").click(), "=": () => element("closer").click(),
    "-": () => element("farther").click(), 0: () => app.showWhole(), Escape: () => { app.pin(app.tree, null); },
  };
  document.addEventListener("keydown", (event) => {
    const isTyping = event.target.matches("input, select") && event.key !== "Escape";
    if (isTyping || event.ctrlKey || event.metaKey || event.altKey || !keys[event.key]) return;
    event.preventDefault();
    keys[event.key]();
  });
}

async function begin() {
  const about = JSON.parse(element("about").textContent), trees = [];
  for (const [k, paving] of about.pavings.entries()) {
    const data = element(`data-${k}`), buffer = await unpacked(data.textContent);
    data.remove();
    trees.push(new Tree(paving, buffer, about.names.length));
  }
  const app = new App(about, trees);
  window.paverView = app;
  showControls(app);
  app.buildPanes();
  listenToControls(app);
  listenToPointer(app);
  listenToKeys(app);
  window.addEventListener("resize", () => app.resize());
  if (trees.length > 1) app.showFrame(trees.length - 1);
}

begin().catch((fault) => {
  element("stage").replaceChildren(made("p", `This page can't be shown: ${fault.message}`, "warning"));
  throw fault;
});
