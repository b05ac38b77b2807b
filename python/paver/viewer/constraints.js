// What each constraint comes to on a box, by intervals of exact rationals. A paving's file does not say by which constraints
// a small box is undecided; this is worked out here when a box is shown, and is no part of the paving.

const KEPT_BITS = 600n;
const RELATIONS = {
  "<=": { sure: (l, r) => !isBelow(r[0], l[1]), fails: (l, r) => isBelow(r[1], l[0]) },
  "<": { sure: (l, r) => isBelow(l[1], r[0]), fails: (l, r) => !isBelow(l[0], r[1]) },
  ">=": { sure: (l, r) => !isBelow(l[0], r[1]), fails: (l, r) => isBelow(l[1], r[0]) },
  ">": { sure: (l, r) => isBelow(r[1], l[0]), fails: (l, r) => !isBelow(r[0], l[1]) },
  "=": {
    sure: (l, r) => [l[0], l[1], r[1]].every((end) => !isBelow(end, r[0]) && !isBelow(r[0], end)),
    fails: (l, r) => isBelow(l[1], r[0]) || isBelow(r[1], l[0]),
  },
};

// The constraints of a canonical text, each with its relation and the words of both sides.
function constraintsOf(canonical) {
  const lines = canonical.split("\n"), count = Number(lines[0].split(" ")[1]);
  return lines.slice(2 + count).filter(Boolean).map((line) => {
    const words = line.match(/[()]|[^\s()]+/g);
    return { relation: words[0], words: words.slice(1) };
  });
}

// The values of both sides on a box: one after the other on the stack, without recursion, as trees can be deep.
function sidesOn(words, box) {
  const stack = [], opened = [];
  for (const word of words) {
    if (word === "(") {
      opened.push({ name: null, from: stack.length });
    } else if (word === ")") {
      const { name, from } = opened.pop();
      stack.push(shortened(OPERATIONS[name](...stack.splice(from))));
    } else if (opened.length && opened[opened.length - 1].name === null) {
      opened[opened.length - 1].name = word;
    } else {
      stack.push(/^v\d/.test(word) ? box[Number(word.slice(1))] : constant(word));
    }
  }
  return stack;
}

class DividesByZero extends Error {}

function constant(word) {
  const [n, d] = word.split("/");
  const value = rational(BigInt(n), BigInt(d || 1));
  return [value, value];
}

// An interval around one whose ends have many bits.
function shortened([low, high]) {
  if (bitLength(low.d) <= 2 * Number(KEPT_BITS) && bitLength(high.d) <= 2 * Number(KEPT_BITS)) return [low, high];
  const scale = 1n << KEPT_BITS, down = floorOf(low.n * scale, low.d), up = -floorOf(-high.n * scale, high.d);
  return [rational(down, scale), rational(up, scale)];
}

const least = (values) => values.reduce((a, b) => (isBelow(b, a) ? b : a));
const greatest = (values) => values.reduce((a, b) => (isBelow(a, b) ? b : a));
const around = (values) => [least(values), greatest(values)];
const NOTHING = rational(0n);
const opposite = ([low, high]) => [rational(-high.n, high.d), rational(-low.n, low.d)];
const holdsZero = ([low, high]) => low.n <= 0n && high.n >= 0n;
const eachWithEach = (work, x, y) => around(x.flatMap((a) => y.map((b) => work(a, b))));

const OPERATIONS = {
  "+": (x, y) => [plus(x[0], y[0]), plus(x[1], y[1])],
  "-": (x, y) => [minus(x[0], y[1]), minus(x[1], y[0])],
  "*": (x, y) => eachWithEach(times, x, y),
  "/": (x, y) => {
    if (holdsZero(y)) throw new DividesByZero();
    return eachWithEach(quotient, x, y);
  },
  min: (x, y) => [least([x[0], y[0]]), least([x[1], y[1]])],
  max: (x, y) => [greatest([x[0], y[0]]), greatest([x[1], y[1]])],
  neg: opposite,
  abs: (x) => (holdsZero(x) ? [NOTHING, greatest([x[1], opposite(x)[1]])] : around(x.map(size))),
  "^": (x, n) => {
    const exponent = n[0].n, ends = x.map((end) => rational(end.n ** exponent, end.d ** exponent));
    if (exponent === 0n) return [rational(1n), rational(1n)];
    if (exponent % 2n) return ends;
    return holdsZero(x) ? [NOTHING, greatest(ends)] : around(ends);
  },
};

function size(value) {
  return value.n < 0n ? rational(-value.n, value.d) : value;
}

// "holds", "fails" or "undecided" on a box of rationals, by intervals alone.
function verdictOn({ relation, words }, box) {
  try {
    const [left, right] = sidesOn(words, box);
    if (RELATIONS[relation].sure(left, right)) return "holds";
    return RELATIONS[relation].fails(left, right) ? "fails" : "undecided";
  } catch (fault) {
    if (fault instanceof DividesByZero) return "undecided";
    throw fault;
  }
}

// The verdict of each constraint on a found part; null where the part has an infinite end.
function verdictsOn(tree, constraints, part) {
  if (!part.every((number) => tree.isFinite(number))) return null;
  const ends = part.map((number) => tree.rational(number));
  const box = Array.from({ length: tree.dims }, (_, k) => [ends[2 * k], ends[2 * k + 1]]);
  return constraints.map((constraint) => verdictOn(constraint, box));
}
