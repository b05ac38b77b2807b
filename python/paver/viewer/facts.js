// The panel's words: legend, a box, and what is known of the system and the pavings. Texts of others are set as texts alone.

function made(tag, text, className) {
  const element = document.createElement(tag);
  if (text !== undefined && text !== null) element.textContent = text;
  if (className) element.className = className;
  return element;
}

const CLASS_OF_KIND = { removed: "removed", inner: "inner", small: "undecided", open: "open", cut: "outside" };

function chip(name, palette) {
  const element = made("span", null, "chip");
  element.style.background = name === "open" ?
    `repeating-linear-gradient(135deg, ${palette.open} 0 3px, ${palette.hatch} 3px 4px)` : palette[name];
  return element;
}

function showLegend(list, lines, palette) {
  list.replaceChildren(...lines.map(([name, label, meaning]) => {
    const line = made("li"), words = made("span");
    words.append(made("b", label), document.createTextNode(`: ${meaning}`));
    line.append(chip(name, palette), words);
    return line;
  }));
}

const pathText = (path) => path || ".";

function kindText(found) {
  if (found.isMargin) return "removed: cut off when the node was contracted";
  return { inner: "inner: every rational point is in the set", removed: "removed: no rational point is in the set",
    small: "small: undecided", open: "open: not settled, nothing is said", cut: "a cut node" }[found.kind];
}

function heading(found, palette) {
  const title = made("h3");
  title.append(chip(CLASS_OF_KIND[found.kind], palette), made("span", kindText(found)));
  return title;
}

// The ends of a part: in decimal, rounded outward, and as the paving writes them.
function places(tree, names, part) {
  return names.map((name, k) => {
    const [low, high] = [part[2 * k], part[2 * k + 1]], line = made("div", null, "place");
    line.append(made("b", name), document.createTextNode(` in [${tree.decimal(low, false)}, ${tree.decimal(high, true)}]`));
    line.append(made("code", `${tree.spelling(low)}  ${tree.spelling(high)}`));
    line.append(made("code", `width at most ${tree.width(low, high)}`));
    return line;
  });
}

// By which constraints a small box is undecided: worked out here, as the file does not say.
function undecidedBy(tree, constraints, texts, part) {
  const verdicts = verdictsOn(tree, constraints, part), unsaid = "The file does not say by which constraints";
  if (!verdicts) return made("p", `${unsaid}; with an infinite end nothing is worked out here.`, "faint");
  const open = verdicts.flatMap((verdict, k) => (verdict === "undecided" ? [k] : [])), block = made("div");
  const failing = verdicts.flatMap((verdict, k) => (verdict === "fails" ? [k] : []));
  const fails = failing.length ? `, ${failing.length} failing` : "";
  block.append(made("p", `${unsaid}. Worked out here by plain intervals of exact fractions: ` +
    `${open.length} of ${verdicts.length} undecided on this box${fails}.`, "faint"));
  for (const k of open.slice(0, 12)) block.append(made("code", `${k}: ${texts[k]}`), made("br"));
  if (open.length > 12) block.append(made("p", `and ${open.length - 12} more`, "faint"));
  return block;
}

function boxFacts(about, tree, found, constraints, palette) {
  const part = partOf(found), facts = [heading(found, palette), made("p")];
  facts[1].append(found.isMargin ? "of the node at path " : "path ", made("code", pathText(found.path)));
  facts[1].title = "From the whole box on: 0 is the low half of a cut, 1 the high half";
  facts.push(made("p", "Ends in decimal, rounded outward, and below them exactly: m:e is m·2^e.", "faint"));
  if (found.isMargin) facts.push(made("p", "The node's box:", "faint"));
  facts.push(...places(tree, about.names, found.isMargin ? found.box : part));
  if (found.isMargin) {
    facts.push(made("p", "What it was contracted to; the rest of the box is removed:", "faint"));
    facts.push(...places(tree, about.names, found.to));
  }
  if (found.kind === "small") facts.push(undecidedBy(tree, constraints, about.constraints, part));
  return facts;
}

// A neighbour in two lines: its kind and path, and its ends in decimal, rounded outward; exact ones on demand.
function nearLine(tree, names, leaf, palette, { choose, point }) {
  const button = made("button"), part = partOf(leaf), name = made("span", `${leaf.kind} ${shortPath(leaf.path)}`);
  button.type = "button";
  button.title = `${kindText(leaf)}\n${exactEnds(tree, names, part)}`;
  name.prepend(chip(CLASS_OF_KIND[leaf.kind], palette));
  const about = (number, up) => tree.decimal(number, up, NEAR_DIGITS);
  const ends = (k) => `[${about(part[2 * k], false)}, ${about(part[2 * k + 1], true)}]`;
  button.append(name, ...names.map((of, k) => made("span", `${of} ${ends(k)}`)));
  button.addEventListener("click", () => choose(leaf));
  for (const kind of ["pointerenter", "focus"]) button.addEventListener(kind, () => point(leaf));
  for (const kind of ["pointerleave", "blur"]) button.addEventListener(kind, () => point(null));
  return button;
}

const NEAR_DIGITS = 6;

const exactEnds = (tree, names, part) => names.map((name, k) =>
  `${name} ${tree.spelling(part[2 * k])} ${tree.spelling(part[2 * k + 1])}`).join("\n");

function nearFacts(tree, names, found, palette, does) {
  const { near, isAll } = neighbours(tree, found), block = made("div"), list = made("div", null, "near");
  block.append(made("p", `${isAll ? near.length : `The first ${near.length}`} leaves touch this box; point at one to see it ` +
    "framed, click to go there. What was cut off on the way is removed, and is not listed.", "faint"));
  list.append(...near.map((leaf) => nearLine(tree, names, leaf, palette, does)));
  block.append(list);
  return block;
}

// The way back to the box that was kept before.
function backFacts(before, back) {
  const button = made("button", `back to ${shortPath(before.path)}`);
  button.type = "button";
  button.addEventListener("click", back);
  return button;
}

const shortPath = (path) => (path.length > 14 ? `…${path.slice(-13)}` : pathText(path));

function overFacts({ counts, isAll, top }) {
  const parts = Object.entries(counts).filter(([, count]) => count).map(([kind, count]) => `${count} ${kind}`);
  const words = parts.length ? parts.join(", ") : "none: what was cut off is removed";
  return made("p", `${isAll ? "" : "At least, of the first 20000 nodes: "}leaves over this place: ${words}.` +
    (top ? " The first of those on top:" : ""), "faint");
}

function row(name, value, isCode) {
  const line = made("tr"), cell = made("td");
  cell.append(isCode ? made("code", value) : document.createTextNode(value));
  line.append(made("th", name), cell);
  return line;
}

function pavingFacts(paving) {
  const table = made("table"), { counts, volumes, shares, settings } = paving, block = made("div");
  const percent = (kind) => (shares ? ` (${(100 * shares[kind]).toPrecision(4)} %)` : "");
  table.append(row("settled", String(counts.settled)), ...["cut", "removed", "inner", "small", "open"].map((kind) =>
    row(kind, String(counts[kind]))));
  table.append(...Object.keys(volumes).map((kind) => row(`volume ${kind}`, volumes[kind] + percent(kind))));
  table.title = "The counts are of nodes; the volume that is removed has what was cut off on the way to kept boxes, too.";
  table.append(...Object.entries(settings).map(([name, value]) => row(`--${name}`, value, true)));
  table.append(row("made by", paving.command), row("identity", paving.identity || "none: printed text", true));
  block.append(made("h2", paving.name), table);
  if (paving.command === "not compared") {
    block.append(made("p", "Whether this paving is of this system was not compared.", "warning"));
  }
  return block;
}

function folded(title, ...content) {
  const element = made("details");
  element.append(made("summary", title), ...content);
  return element;
}

function showFacts(host, about) {
  const digestLine = made("p", "SHA-256 of the system as understood: ", "faint");
  digestLine.append(made("code", about.digest));
  host.replaceChildren(made("h2", "What this is"), ...about.pavings.map(pavingFacts),
    folded("The system's text", made("pre", about.source)),
    folded("The system as understood", made("pre", about.constraints.map((text, k) => `${k}: ${text}`).join("\n"))),
    digestLine);
}

// The question at the head of a system's text: its comment up to the first line that ends a sentence.
function questionOf(source) {
  const lines = [];
  for (const line of source.split(/\r?\n/)) {
    if (!line.startsWith("//")) break;
    lines.push(line.slice(2).trim());
    if (/[.?!:]$/.test(line)) break;
  }
  return lines.join(" ");
}
