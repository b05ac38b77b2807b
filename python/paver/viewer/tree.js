// A paving as typed arrays in preorder: the low child of a cut is the next node, the high child begins where the low one's
// subtree ends. Bits tell kinds: a node's `below` has those of all parts of its box.

const REMOVED = 1, INNER = 2, SMALL = 4, OPEN = 8, OUTSIDE = 16;
const KIND_BITS = [REMOVED, INNER, SMALL, OPEN], KIND_NAMES = ["removed", "inner", "small", "open"];
const FIRST_CUT = 4, INFINITE_EXPONENT = 32767;

async function unpacked(text) {
  const packed = typeof Uint8Array.fromBase64 === "function" ? Uint8Array.fromBase64(text) :
    Uint8Array.from(atob(text), (letter) => letter.charCodeAt(0));
  const stream = new Blob([packed]).stream().pipeThrough(new DecompressionStream("deflate"));
  return new Response(stream).arrayBuffer();
}

function countOfBits(word) {
  let count = 0;
  for (; word; word &= word - 1) count += 1;
  return count;
}

class Tree {
  constructor(about, buffer, dims) {
    const { nodes, numbers } = about;
    this.about = about;
    this.dims = dims;
    this.nodes = nodes;
    this.mantissas = new Int32Array(buffer, 0, 2 * numbers);
    this.changed = new Uint32Array(buffer, 8 * numbers, nodes);
    this.exponents = new Int16Array(buffer, 8 * numbers + 4 * nodes, numbers);
    this.codes = new Uint8Array(buffer, 10 * numbers + 4 * nodes, nodes);
    this.readNumbers(numbers);
    this.findStarts();
    this.findSubtrees();
    this.root = Array.from({ length: 2 * dims }, (_, k) => k);
  }

  // Each number as two floats; both steps are exact, as high is the sum's nearest float.
  readNumbers(count) {
    const high = this.high = new Float64Array(count), low = this.low = new Float64Array(count);
    const powers = Float64Array.from({ length: 1024 }, (_, k) => 2 ** (k - 512));
    const { mantissas, exponents } = this;
    for (let k = 0; k < count; k += 1) {
      if (exponents[k] === INFINITE_EXPONENT) {
        high[k] = mantissas[2 * k + 1] < 0 ? -Infinity : Infinity;
        continue;
      }
      const upper = mantissas[2 * k + 1] * 4294967296, lower = mantissas[2 * k] >>> 0, power = powers[exponents[k] + 512];
      const sum = upper + lower;
      high[k] = sum * power;
      low[k] = (upper - sum + lower) * power;
    }
  }

  // The first number of each node.
  findStarts() {
    const { nodes, changed, codes } = this, starts = this.starts = new Uint32Array(nodes);
    let at = 2 * this.dims;
    for (let node = 0; node < nodes; node += 1) {
      starts[node] = at;
      if (codes[node] >= FIRST_CUT) at += 1;
      if (changed[node]) at += countOfBits(changed[node]);
    }
  }

  // Where each subtree ends, and its kinds; children stand behind their parent, so one pass from the end will do.
  findSubtrees() {
    const { nodes, changed, codes } = this;
    const ends = this.ends = new Uint32Array(nodes), below = this.below = new Uint8Array(nodes);
    for (let node = nodes - 1; node >= 0; node -= 1) {
      const margin = changed[node] ? REMOVED : 0;
      if (codes[node] < FIRST_CUT) {
        ends[node] = node + 1;
        below[node] = KIND_BITS[codes[node]] | margin;
        continue;
      }
      const second = ends[node + 1];
      ends[node] = ends[second];
      below[node] = below[node + 1] | below[second] | margin;
    }
  }

  // The ends of what a node was contracted to, as places of numbers, from those of its box.
  contracted(node, box) {
    const changed = this.changed[node];
    if (!changed) return box;
    const to = box.slice();
    let at = this.starts[node] + (this.codes[node] >= FIRST_CUT ? 1 : 0);
    for (let k = 0; k < to.length; k += 1) {
      if (changed >>> k & 1) to[k] = at++;
    }
    return to;
  }

  // The halves of a cut: the nodes and their boxes.
  halves(node, to) {
    const place = 2 * (this.codes[node] - FIRST_CUT), low = to.slice(), high = to.slice();
    low[place + 1] = high[place] = this.starts[node];
    return [{ node: node + 1, box: low }, { node: this.ends[node + 1], box: high }];
  }

  // Whether a number is below (-1), at (0) or above (1) two floats whose first is their sum's nearest.
  compare(number, pair) {
    const high = this.high[number];
    if (high !== pair.high) return high < pair.high ? -1 : 1;
    return Math.sign(this.low[number] - pair.low);
  }

  pair(number) {
    return { high: this.high[number], low: this.low[number] };
  }

  isFinite(number) {
    return this.exponents[number] !== INFINITE_EXPONENT;
  }

  rational(number) {
    const mantissa = BigInt(this.mantissas[2 * number + 1]) * 4294967296n + BigInt(this.mantissas[2 * number] >>> 0);
    return times(rational(mantissa), powerOfTwo(BigInt(this.exponents[number])));
  }

  // A number as the paving writes it.
  spelling(number) {
    if (!this.isFinite(number)) return this.high[number] < 0 ? "-oo" : "+oo";
    const mantissa = BigInt(this.mantissas[2 * number + 1]) * 4294967296n + BigInt(this.mantissas[2 * number] >>> 0);
    return `${mantissa}:${this.exponents[number]}`;
  }

  // An end in decimal, rounded outward.
  decimal(number, up, digits = 17) {
    if (!this.isFinite(number)) return this.high[number] < 0 ? "-∞" : "+∞";
    return decimal(this.rational(number), up, digits);
  }

  // The width between two ends in decimal, rounded up.
  width(low, high) {
    if (!this.isFinite(low) || !this.isFinite(high)) return "∞";
    return decimal(minus(this.rational(high), this.rational(low)), true, 6);
  }
}
