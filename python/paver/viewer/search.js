// Finding nodes: the one that holds a point, those over a place of a projection, and the neighbours of one.
// A found node has its number, path (a digit a cut, 0 for low), kind, box and what that was contracted to, as places of
// numbers. Where a point lies in what was cut off, the found part is that margin of the node: it is removed.

function holds(tree, box, point) {
  return point.every((level, k) => !level || isBetween(tree, box[2 * k], level, box[2 * k + 1]));
}

function isAtOrAbove(tree, number, level) {
  return tree.compare(number, level.below) <= 0;
}

// The node that holds a point; of two that share a face with it, the high one. null outside the search box.
function locate(tree, point) {
  let node = 0, box = tree.root, path = "";
  if (!holds(tree, box, point)) return null;
  for (;;) {
    const to = tree.contracted(node, box), code = tree.codes[node];
    if (!holds(tree, to, point)) return { node, path, kind: "removed", isMargin: true, box, to };
    if (code < FIRST_CUT) return { node, path, kind: KIND_NAMES[code], isMargin: false, box, to };
    const step = isAtOrAbove(tree, tree.starts[node], point[code - FIRST_CUT]) ? 1 : 0;
    ({ node, box } = tree.halves(node, to)[step]);
    path += step;
  }
}

// The leaves over a place: point has null for the variables that are free. How many there are of each kind, and the first of
// the kind that is painted on top; `isAll` says whether all were visited.
function over(tree, point, most = 20000) {
  const counts = { inner: 0, small: 0, open: 0, removed: 0 }, first = {};
  const waiting = [{ node: 0, box: tree.root, path: "" }];
  let visited = 0;
  while (waiting.length && visited < most) {
    const { node, box, path } = waiting.pop();
    if (!holds(tree, box, point)) continue;
    visited += 1;
    const to = tree.contracted(node, box), code = tree.codes[node];
    if (!holds(tree, to, point)) continue;
    if (code < FIRST_CUT) {
      const kind = KIND_NAMES[code];
      counts[kind] += 1;
      first[kind] = first[kind] || { node, path, kind, isMargin: false, box, to };
      continue;
    }
    const [low, high] = tree.halves(node, to);
    waiting.push({ ...high, path: path + "1" }, { ...low, path: path + "0" });
  }
  const top = ["inner", "small", "open", "removed"].find((kind) => counts[kind]);
  return { counts, isAll: !waiting.length, top: top ? first[top] : null };
}

function touches(tree, box, other) {
  for (let k = 0; k < box.length; k += 2) {
    if (tree.compare(box[k], tree.pair(other[k + 1])) > 0 || tree.compare(box[k + 1], tree.pair(other[k])) < 0) return false;
  }
  return true;
}

const partOf = (found) => (found.kind === "inner" || found.kind === "small" ? found.to : found.box);

// The leaves that touch one, itself left out, in preorder.
function neighbours(tree, found, most = 24) {
  const own = partOf(found), near = [], waiting = [{ node: 0, box: tree.root, path: "" }];
  while (waiting.length && near.length <= most) {
    const { node, box, path } = waiting.pop();
    if (!touches(tree, box, own)) continue;
    const to = tree.contracted(node, box), code = tree.codes[node];
    if (code >= FIRST_CUT) {
      const [low, high] = tree.halves(node, to);
      waiting.push({ ...high, path: path + "1" }, { ...low, path: path + "0" });
      continue;
    }
    const leaf = { node, path, kind: KIND_NAMES[code], isMargin: false, box, to };
    if (node !== found.node && touches(tree, partOf(leaf), own)) near.push(leaf);
  }
  return { near: near.slice(0, most), isAll: near.length <= most };
}

// The node at the end of a path; null where there is none.
function atPath(tree, path) {
  let node = 0, box = tree.root;
  for (const step of path) {
    if (tree.codes[node] < FIRST_CUT) return null;
    ({ node, box } = tree.halves(node, tree.contracted(node, box))[Number(step)]);
  }
  const code = tree.codes[node], kind = code < FIRST_CUT ? KIND_NAMES[code] : "cut";
  return { node, path, kind, isMargin: false, box, to: tree.contracted(node, box) };
}
