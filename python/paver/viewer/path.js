// A short way between two points through inner boxes that share faces, by A* over the leaves; it is drawn by floats. The
// package's command `path` gives exact points, and compares them with the boxes.

const SWEEPS = 200;

// In how many places two boxes that touch meet in one number alone.
function flatPlaces(tree, one, other) {
  const isOne = (a, b) => tree.compare(a, tree.pair(b)) === 0;
  let count = 0;
  for (let k = 0; k < one.length; k += 2) {
    if (isOne(one[k], other[k + 1]) || isOne(one[k + 1], other[k]) || isOne(one[k], one[k + 1]) ||
      isOne(other[k], other[k + 1])) count += 1;
  }
  return count;
}

// The inner leaves that are chosen by their boxes; parts that hold none are passed over.
function innerLeaves(tree, isChosen) {
  const found = [], waiting = [[0, tree.root]];
  while (waiting.length) {
    const [node, box] = waiting.pop();
    if (!(tree.below[node] & INNER) || !isChosen(box)) continue;
    const to = tree.contracted(node, box);
    if (!isChosen(to)) continue;
    if (tree.codes[node] < FIRST_CUT) found.push({ node, box: to });
    else for (const half of tree.halves(node, to)) waiting.push([half.node, half.box]);
  }
  return found;
}

// A heap of entries whose first number is the least at the top.
class Heap {
  constructor() {
    this.entries = [];
  }

  push(entry) {
    const { entries } = this;
    let at = entries.push(entry) - 1;
    for (let above = (at - 1) >> 1; at && entries[above][0] > entry[0]; above = (at - 1) >> 1) {
      entries[at] = entries[above];
      at = above;
    }
    entries[at] = entry;
  }

  pop() {
    const { entries } = this, top = entries[0], last = entries.pop();
    if (!entries.length) return top;
    let at = 0;
    for (let below = 1; below < entries.length; below = 2 * at + 1) {
      if (below + 1 < entries.length && entries[below + 1][0] < entries[below][0]) below += 1;
      if (entries[below][0] >= last[0]) break;
      entries[at] = entries[below];
      at = below;
    }
    entries[at] = last;
    return top;
  }
}

const apart = (one, other) => Math.hypot(...one.map((x, k) => x - other[k]));
const middleOf = ({ lows, highs }) => lows.map((low, k) => low + (highs[k] - low) / 2);

// The ends of what two boxes share, as floats within a reach that stands for infinite ends.
function sharedSides(tree, one, other, reach) {
  const lows = [], highs = [], end = (number) => Math.max(-reach, Math.min(reach, tree.high[number]));
  for (let k = 0; k < one.length; k += 2) {
    lows.push(Math.max(end(one[k]), end(other[k])));
    highs.push(Math.min(end(one[k + 1]), end(other[k + 1])));
  }
  return { lows, highs };
}

// The sides that a way crosses in turn, from the boxes of one point to those of another; null where there is no way.
function crossings(tree, from, to, begin, ends, reach) {
  const flat = 1 + tree.root.filter((end, k) => k % 2 && !tree.compare(end, tree.pair(end - 1))).length;
  const least = new Map(), done = new Map(), heap = new Heap();
  for (const { node, box } of begin) heap.push([apart(from, to), 0, node, box, -1, null, from]);
  while (heap.entries.length) {
    const [, far, node, box, before, sides, point] = heap.pop();
    if (done.has(node)) continue;
    done.set(node, { before, sides });
    if (ends.has(node)) {
      const found = [];
      for (let step = done.get(node); step.sides; step = done.get(step.before)) found.push(step.sides);
      return found.reverse();
    }
    for (const near of innerLeaves(tree, (other) => touches(tree, other, box))) {
      if (done.has(near.node) || flatPlaces(tree, near.box, box) > flat) continue;
      const shared = sharedSides(tree, box, near.box, reach), middle = middleOf(shared), length = far + apart(point, middle);
      if (length >= (least.get(near.node) ?? Infinity)) continue;
      least.set(near.node, length);
      heap.push([length + apart(middle, to), length, near.node, near.box, node, shared, middle]);
    }
  }
  return null;
}

// A point of shared sides by which the way from one point to another is short: see straight.py.
function turnBetween(first, second, { lows, highs }) {
  const found = lows.slice(), held = [];
  let free = [];
  lows.forEach((low, k) => (low === highs[k] ? held : free).push(k));
  while (free.length) {
    const far = (point) => Math.hypot(...held.map((k) => point[k] - found[k])), before = far(first), after = far(second);
    const share = before + after ? before / (before + after) : 0.5, stopped = [];
    for (const k of free) {
      const x = first[k] + share * (second[k] - first[k]);
      found[k] = Math.max(lows[k], Math.min(highs[k], x));
      if (found[k] !== x) stopped.push(k);
    }
    if (!stopped.length) break;
    held.push(...stopped);
    free = free.filter((k) => !stopped.includes(k));
  }
  return found;
}

// A way between two points, given by their coordinates, as points of floats; null where inner boxes lead to none.
function wayBetween(tree, start, goal) {
  const [begin, end] = [start, goal].map((point) => innerLeaves(tree, (box) => holds(tree, box, point)));
  if (!begin.length || !end.length) return null;
  const [from, to] = [start, goal].map((point) => point.map(({ value }) => pairNear(value).high));
  let most = Math.max(...from.map(Math.abs), ...to.map(Math.abs));
  for (const x of tree.high) if (Math.abs(x) !== Infinity) most = Math.max(most, Math.abs(x));
  const sides = crossings(tree, from, to, begin, new Set(end.map(({ node }) => node)), 2 * most + 1);
  if (!sides) return null;
  const points = [from, ...sides.map(middleOf), to];
  for (let sweep = 0; sweep < SWEEPS; sweep += 1) {
    for (let k = 1; k < points.length - 1; k += 1) points[k] = turnBetween(points[k - 1], points[k + 1], sides[k - 1]);
  }
  return points;
}

// The pixels of a way's points; a point is floats, or pairs of floats.
const pixelsOfWay = (axes, way) => way.map((point) => [axes.x, axes.y].map((axis) => {
  const x = point[axis.variable];
  return typeof x === "number" ? axis.pixel(x, 0) : axis.pixel(x.high, x.low);
}));

// What is said of two clicks, the first one's point and the second one's: [words, the way to draw].
function answerOfClicks(tree, start, goal, names) {
  const text = (point) => point.map(({ value }, k) => `${names[k]}=${decimal(value, false, 7)}`).join(",");
  if (!goal) return [`From ${text(start)}: click where the path ends.`, null];
  const way = wayBetween(tree, start, goal);
  const asked = `path SYSTEM PAVING --from ${text(start)} --to ${text(goal)}`;
  if (!way) return [`No path lies within the inner boxes. Ask why by ${asked}`, null];
  const length = way.slice(1).reduce((sum, point, k) => sum + apart(way[k], point), 0);
  return [`Length ${length.toPrecision(6)}, drawn by floats. Exact points are given by ${asked}`, way];
}
