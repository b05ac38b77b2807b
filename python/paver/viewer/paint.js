// Which kinds of parts each pixel touches. A pixel takes a bit of every part that touches it, so one with the bit of inner
// parts alone lies in inner boxes, one with that of removed parts alone in removed ones, and nothing gets lost: what is
// smaller than a pixel leaves its bits there. The walk ends at nodes that touch one pixel, and takes all their kinds.
//
// Numbers and the anchors of axes are sums of two floats, so a position is right to 2^-28 of a pixel for all that is near the
// picture, also where a number's last place is many pixels wide; parts are widened by SLACK, which is far more.

const SLACK = 2 ** -20;

// The pixels along a variable: pixel k has the values from anchor + (offset + k)·scale on, or from that down where sign is -1.
class Axis {
  constructor(variable, anchor, scale, offset, sign) {
    this.variable = variable;
    this.high = anchor.high;
    this.low = anchor.low;
    this.scale = scale;
    this.offset = offset;
    this.sign = sign;
  }

  // Where a number lies, in pixels. The difference of two near floats is exact, and the small parts make up for what the
  // large ones leave out; far from the anchor the error is 2^-52 of the difference.
  pixel(high, low) {
    if (high === Infinity || high === -Infinity) return this.sign * high;
    return this.sign * (((high - this.high) + (low - this.low)) / this.scale) - this.offset;
  }

  // The exact value at a pixel's first edge.
  value(pixel) {
    const steps = times(ofFloat(this.scale), ofFloat(this.sign * (this.offset + pixel)));
    return plus(ofPair(this), steps);
  }
}

// Bits of pixels of a rectangle, rows of a common buffer.
class Sheet {
  constructor(bits, stride, left, top, right, bottom, start = 0) {
    Object.assign(this, { bits, stride, left, top, right, bottom, start });
  }

  // The same buffer where a part of it alone is drawn.
  part(left, top, right, bottom) {
    const start = this.start + (top - this.top) * this.stride + left - this.left;
    return new Sheet(this.bits, this.stride, left, top, right, bottom, start);
  }

  fill(bit) {
    for (let row = this.top, at = this.start; row < this.bottom; row += 1, at += this.stride) {
      this.bits.fill(bit, at, at + this.right - this.left);
    }
  }
}

// Of two parts of space over one place, what is known of the shadow of both: a point of the set in one is enough.
const OVER_EACH_OTHER = Uint8Array.from({ length: 1024 }, (_, pair) => {
  const first = pair >> 5, second = pair & 31;
  if (first === INNER || second === INNER) return INNER;
  if (first === REMOVED) return second || first;
  return second === REMOVED ? first || second : first | second;
});

class Painter {
  // levels: of each other variable its coordinate, for a slice; null for the projection.
  constructor(tree, x, y, levels) {
    Object.assign(this, { tree, x, y, levels });
    this.sheets = [];
    this.depth = 0;
  }

  // Works out the bits of a sheet anew.
  paint(sheet) {
    const { x0, x1, y0, y1 } = this.ends();
    sheet.fill(OUTSIDE);
    const left = Math.max(sheet.left, Math.ceil(x0 + SLACK)), right = Math.min(sheet.right, Math.floor(x1 - SLACK));
    const top = Math.max(sheet.top, Math.ceil(y0 + SLACK)), bottom = Math.min(sheet.bottom, Math.floor(y1 - SLACK));
    if (left < right && top < bottom) sheet.part(left, top, right, bottom).fill(0);
    this.begin(sheet);
  }

  begin(sheet) {
    const { x0, x1, y0, y1 } = this.ends();
    if (!this.levels || this.isInRoot()) this.walk(0, x0, x1, y0, y1, sheet);
  }

  // The ends of the search box in pixels.
  ends() {
    const { tree: { root }, x, y } = this, at = (axis, side) => this.end(axis, root[2 * axis.variable + side]);
    return { x0: at(x, 0), x1: at(x, 1), y0: at(y, 1), y1: at(y, 0) };
  }

  end(axis, number) {
    return axis.pixel(this.tree.high[number], this.tree.low[number]);
  }

  isInRoot() {
    const { tree, levels } = this;
    return levels.every((level, k) => !level || isBetween(tree, tree.root[2 * k], level, tree.root[2 * k + 1]));
  }

  // A node whose box has these ends; rows grow as values of y fall.
  walk(node, x0, x1, y0, y1, sheet) {
    if (x1 < sheet.left - SLACK || x0 > sheet.right + SLACK || y1 < sheet.top - SLACK || y0 > sheet.bottom + SLACK) return;
    const tree = this.tree, kinds = tree.below[node];
    const columns = Math.ceil(x1 + SLACK) - Math.floor(x0 - SLACK), rows = Math.ceil(y1 + SLACK) - Math.floor(y0 - SLACK);
    if ((kinds & (kinds - 1)) === 0 || (columns <= 1 && rows <= 1)) this.mark(kinds, x0, x1, y0, y1, sheet, node);
    else this.enter(node, x0, x1, y0, y1, sheet);
  }

  enter(node, x0, x1, y0, y1, sheet) {
    const changed = this.tree.changed[node];
    if (changed === 0) this.settled(node, x0, x1, y0, y1, sheet);
    else this.contracted(node, changed, x0, x1, y0, y1, sheet);
  }

  // A node that was contracted: what was cut off is removed. A level that was cut off leaves nothing.
  contracted(node, changed, x0, x1, y0, y1, sheet) {
    const { tree, x, y, levels } = this;
    const xPlace = 2 * x.variable, yPlace = 2 * y.variable;
    let a = x0, b = x1, c = y0, d = y1, number = tree.starts[node] + (tree.codes[node] >= FIRST_CUT ? 1 : 0);
    for (let bits = changed; bits; bits &= bits - 1, number += 1) {
      const place = 31 - Math.clz32(bits & -bits);
      if (place === xPlace) a = this.end(x, number);
      else if (place === xPlace + 1) b = this.end(x, number);
      else if (place === yPlace) d = this.end(y, number);
      else if (place === yPlace + 1) c = this.end(y, number);
      else if (levels && isOutside(tree, number, place & 1, levels[place >> 1])) {
        this.mark(REMOVED, x0, x1, y0, y1, sheet, node);
        return;
      }
    }
    if (changed >>> xPlace & 1) this.mark(REMOVED, x0, a, y0, y1, sheet, node);
    if (changed >>> xPlace & 2) this.mark(REMOVED, b, x1, y0, y1, sheet, node);
    if (changed >>> yPlace & 1) this.mark(REMOVED, a, b, d, y1, sheet, node);
    if (changed >>> yPlace & 2) this.mark(REMOVED, a, b, y0, c, sheet, node);
    this.settled(node, a, b, c, d, sheet);
  }

  // A leaf, or a cut whose halves are walked.
  settled(node, x0, x1, y0, y1, sheet) {
    const tree = this.tree, code = tree.codes[node];
    if (code < FIRST_CUT) {
      this.mark(KIND_BITS[code], x0, x1, y0, y1, sheet, node);
      return;
    }
    const variable = code - FIRST_CUT, number = tree.starts[node], low = node + 1, high = tree.ends[low];
    if (variable === this.x.variable) {
      const middle = this.end(this.x, number);
      this.walk(low, x0, middle, y0, y1, sheet);
      this.walk(high, middle, x1, y0, y1, sheet);
    } else if (variable === this.y.variable) {
      const middle = this.end(this.y, number);
      this.walk(low, x0, x1, middle, y1, sheet);
      this.walk(high, x0, x1, y0, middle, sheet);
    } else if (this.levels) {
      const isHigh = tree.compare(number, this.levels[variable].below) <= 0;
      this.walk(isHigh ? high : low, x0, x1, y0, y1, sheet);
    } else {
      this.overEachOther(low, high, x0, x1, y0, y1, sheet);
    }
  }

  // Both halves cast their shadows on one place.
  overEachOther(low, high, x0, x1, y0, y1, sheet) {
    const { below } = this.tree;
    if (below[low] === INNER || below[high] === INNER) {
      this.mark(INNER, x0, x1, y0, y1, sheet, low);
    } else if (below[low] === REMOVED) {
      this.walk(high, x0, x1, y0, y1, sheet);
    } else if (below[high] === REMOVED) {
      this.walk(low, x0, x1, y0, y1, sheet);
    } else {
      const first = this.scratch(2 * this.depth, x0, x1, y0, y1, sheet);
      const second = this.scratch(2 * this.depth + 1, x0, x1, y0, y1, sheet);
      this.depth += 1;
      this.walk(low, x0, x1, y0, y1, first);
      this.walk(high, x0, x1, y0, y1, second);
      this.depth -= 1;
      joinShadows(first, second, sheet);
    }
  }

  // An empty sheet for the pixels of a sheet that a part touches.
  scratch(level, x0, x1, y0, y1, sheet) {
    const left = Math.max(sheet.left, Math.floor(x0 - SLACK)), right = Math.min(sheet.right, Math.ceil(x1 + SLACK));
    const top = Math.max(sheet.top, Math.floor(y0 - SLACK)), bottom = Math.min(sheet.bottom, Math.ceil(y1 + SLACK));
    const size = Math.max(0, right - left) * Math.max(0, bottom - top);
    if (!this.sheets[level] || this.sheets[level].length < size) this.sheets[level] = new Uint8Array(size);
    this.sheets[level].fill(0, 0, size);
    return new Sheet(this.sheets[level], Math.max(0, right - left), left, top, right, bottom);
  }

  // Gives the bits to all pixels that a part touches.
  mark(bit, x0, x1, y0, y1, sheet) {
    const left = Math.max(sheet.left, Math.floor(x0 - SLACK)), right = Math.min(sheet.right, Math.ceil(x1 + SLACK));
    const top = Math.max(sheet.top, Math.floor(y0 - SLACK)), bottom = Math.min(sheet.bottom, Math.ceil(y1 + SLACK));
    const { bits, stride } = sheet;
    let begin = sheet.start + (top - sheet.top) * stride + left - sheet.left;
    for (let row = top; row < bottom; row += 1, begin += stride) {
      for (let at = begin, end = begin + right - left; at < end; at += 1) bits[at] |= bit;
    }
  }
}

function joinShadows(first, second, sheet) {
  const width = first.right - first.left;
  let from = 0, to = sheet.start + (first.top - sheet.top) * sheet.stride + first.left - sheet.left;
  for (let row = first.top; row < first.bottom; row += 1, to += sheet.stride) {
    for (let k = 0; k < width; k += 1, from += 1) {
      sheet.bits[to + k] |= OVER_EACH_OTHER[first.bits[from] << 5 | second.bits[from]];
    }
  }
}

// Whether a coordinate lies between two numbers, ends included.
function isBetween(tree, low, coordinate, high) {
  return tree.compare(low, coordinate.below) <= 0 && tree.compare(high, coordinate.above) >= 0;
}

// Whether a coordinate lies beyond an end: below a lower one (side 0) or above an upper one (side 1).
function isOutside(tree, number, side, coordinate) {
  return side ? tree.compare(number, coordinate.above) < 0 : tree.compare(number, coordinate.below) > 0;
}

// The outlines of boxes that are some pixels wide, by the same walk: [x0, x1, y0, y1] in turn.
class Outliner extends Painter {
  constructor(tree, x, y, levels, least, most) {
    super(tree, x, y, levels);
    Object.assign(this, { least, most, found: [] });
  }

  walk(node, x0, x1, y0, y1, sheet) {
    const isSeen = x1 > sheet.left && x0 < sheet.right && y1 > sheet.top && y0 < sheet.bottom;
    if (isSeen && x1 - x0 >= this.least && y1 - y0 >= this.least) this.enter(node, x0, x1, y0, y1, sheet);
  }

  mark(bit, x0, x1, y0, y1, sheet, node) {
    const isLeaf = this.tree.codes[node] < FIRST_CUT, isKept = bit === INNER || bit === SMALL || bit === OPEN;
    const isWide = x1 - x0 >= this.least && y1 - y0 >= this.least;
    const isSeen = x1 > sheet.left && x0 < sheet.right && y1 > sheet.top && y0 < sheet.bottom;
    if (isLeaf && isKept && isWide && isSeen && this.found.length < 4 * this.most) this.found.push(x0, x1, y0, y1);
  }

  overEachOther(low, high, x0, x1, y0, y1, sheet) {
    this.walk(low, x0, x1, y0, y1, sheet);
    this.walk(high, x0, x1, y0, y1, sheet);
  }
}
