// What is seen of a pixel's bits, and in which colour. The colours differ in lightness too, so that they are told apart by
// people who see some or no colours, and in print; open leaves are hatched.

const CLASSES = ["outside", "removed", "inner", "undecided", "open", "contradiction", "innerBySome", "removedBySome"];
const [CLASS_OUTSIDE, CLASS_REMOVED, CLASS_INNER, CLASS_UNDECIDED, CLASS_OPEN, CLASS_CONTRADICTION, CLASS_INNER_BY_SOME,
  CLASS_REMOVED_BY_SOME] = CLASSES.keys();
const PALETTES = {
  light: {
    outside: "#f8f9fb", removed: "#dfe4e9", inner: "#1d7a5f", undecided: "#f2ae0d", open: "#ffffff", hatch: "#8b98a5",
    contradiction: "#c2185b", innerBySome: "#62b297", removedBySome: "#edf0f3", page: "#ffffff", ink: "#1c232b",
    faint: "#66717d", line: "#0b2a20", pin: "#0b57d0",
  },
  dark: {
    outside: "#15191e", removed: "#3a444e", inner: "#35b48b", undecided: "#ffd25a", open: "#101317", hatch: "#7d8a97",
    contradiction: "#ff5c9a", innerBySome: "#2a7d63", removedBySome: "#2b333b", page: "#1b2026", ink: "#e8edf2",
    faint: "#98a4b0", line: "#06130e", pin: "#8ab4ff",
  },
};

// A pixel's class by its bits: one kind alone, or undecided. What lies outside the search box is no part of the set, and a
// pixel that an open leaf shares with removed parts alone counts as open.
const CLASS_OF_BITS = Uint8Array.from({ length: 32 }, (_, bits) => {
  if (bits === OUTSIDE || bits === 0) return CLASS_OUTSIDE;
  if (bits === REMOVED || bits === (REMOVED | OUTSIDE)) return CLASS_REMOVED;
  if (bits === INNER) return CLASS_INNER;
  if (bits & OPEN && !(bits & (INNER | SMALL))) return CLASS_OPEN;
  return CLASS_UNDECIDED;
});

// Of several pavings of one system over each other: what any of them decides is decided.
function classOfSeveral(classes) {
  const has = (one) => classes.includes(one), all = (one) => classes.every((other) => other === one);
  if (has(CLASS_INNER) && has(CLASS_REMOVED)) return CLASS_CONTRADICTION;
  for (const [one, bySome] of [[CLASS_INNER, CLASS_INNER_BY_SOME], [CLASS_REMOVED, CLASS_REMOVED_BY_SOME]]) {
    if (has(one)) return all(one) ? one : bySome;
  }
  return has(CLASS_UNDECIDED) ? CLASS_UNDECIDED : classes[0];
}

// The classes of pixels from one place of the buffers to another; lists of classes that were met are kept.
const JOINED = new Map();

function classify(layers, target, from, to) {
  if (layers.length === 1) {
    for (let at = from, bits = layers[0]; at < to; at += 1) target[at] = CLASS_OF_BITS[bits[at]];
    return;
  }
  for (let at = from; at < to; at += 1) {
    let key = 1;
    for (const bits of layers) key = key * 8 + CLASS_OF_BITS[bits[at]];
    if (!JOINED.has(key)) JOINED.set(key, classOfSeveral(layers.map((bits) => CLASS_OF_BITS[bits[at]])));
    target[at] = JOINED.get(key);
  }
}

function wordOfColour(colour) {
  const [red, green, blue] = [1, 3, 5].map((at) => parseInt(colour.slice(at, at + 2), 16));
  return (255 << 24 | blue << 16 | green << 8 | red) >>> 0;
}

// Paints classes as words of an image. Open leaves get slanted lines, every so many pixels.
class Brush {
  constructor(palette, ratio) {
    this.colours = Uint32Array.from(CLASSES, (name) => wordOfColour(palette[name]));
    this.hatch = wordOfColour(palette.hatch);
    this.period = Math.round(8 * ratio);
    this.thick = Math.max(1, Math.round(this.period / 6));
  }

  // From one place of a row to another; `slant` is the sum of column and row at the first, in pixels of the axes.
  paint(classes, words, from, to, slant) {
    const { colours, hatch, period, thick } = this;
    for (let at = from, phase = (slant % period + period) % period; at < to; at += 1) {
      const one = classes[at];
      words[at] = one === CLASS_OPEN && phase < thick ? hatch : colours[one];
      phase = phase + 1 === period ? 0 : phase + 1;
    }
  }
}

const LEGENDS = {
  slice: [
    ["inner", "inner", "every rational point is in the set"],
    ["removed", "removed", "no rational point is in the set"],
    ["undecided", "undecided", "small boxes, and what a pixel can't tell apart"],
    ["open", "open", "not settled yet: nothing is said"],
  ],
  projection: [
    ["inner", "inner", "some values of the other variables are in the set"],
    ["removed", "removed", "no values of the other variables are"],
    ["undecided", "undecided", "no inner box lies over or under it, a small one does, or a pixel can't tell"],
    ["open", "open", "only open leaves lie over or under it"],
  ],
  over: [
    ["innerBySome", "inner by some", "not by each of the pavings"],
    ["removedBySome", "removed by some", "not by each of the pavings"],
    ["contradiction", "contradiction", "inner in one, removed in another: they can't both be right"],
  ],
};

const PAINT_ORDER = {
  slice: "The slice at the values below: at each place the one box that holds it is seen.",
  projection: "The shadow of all boxes. At each place inner lies on top of undecided, undecided on top of open, open on top " +
    "of removed.",
};
