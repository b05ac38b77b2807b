// Exact numbers. A number of a paving is m·2^e with a mantissa of 62 bits. As two floats, high + low with high the float
// next to it, it is exact: 53 bits and the 9 that are left, and the exponents of pavings lie well within those of floats.
// Points that people type are exact rationals of BigInts, {n, d} with d above 0.

const BITS = 62n, SCALE = 512n, GREATEST = ((1n << BITS) - 1n) << (450n + SCALE);
const NUMBER_FORMS = {
  dyadic: /^(-?\d{1,19}):(-?\d{1,3})$/,
  decimal: /^([+-]?)(\d*)\.?(\d*)(?:[eE]([+-]?\d{1,3}))?$/,
  fraction: /^([+-]?\d{1,400})\/(\d{1,400})$/,
};

function rational(n, d = 1n) {
  return d < 0n ? { n: -n, d: -d } : { n, d };
}

function powerOfTwo(exponent) {
  return exponent >= 0n ? rational(1n << exponent) : rational(1n, 1n << -exponent);
}

const plus = (a, b) => rational(a.n * b.d + b.n * a.d, a.d * b.d);
const minus = (a, b) => rational(a.n * b.d - b.n * a.d, a.d * b.d);
const times = (a, b) => rational(a.n * b.n, a.d * b.d);
const quotient = (a, b) => rational(a.n * b.d, a.d * b.n);
const isBelow = (a, b) => a.n * b.d < b.n * a.d;

function floorOf(n, d) {
  const whole = n / d;
  return n % d !== 0n && n < 0n ? whole - 1n : whole;
}

// The rational of a finite float.
function ofFloat(value) {
  const view = new DataView(new ArrayBuffer(8));
  view.setFloat64(0, value);
  const bits = view.getBigUint64(0), exponent = Number((bits >> 52n) & 2047n);
  const part = bits & ((1n << 52n) - 1n), mantissa = exponent ? part | (1n << 52n) : part;
  const size = times(rational(value < 0 ? -mantissa : mantissa), powerOfTwo(BigInt((exponent || 1) - 1075)));
  return size;
}

// A float near a rational: the nearest, or one next to it.
function nearFloat({ n, d }) {
  if (n === 0n) return 0;
  const size = n < 0n ? -n : n;
  const shift = bitLength(d) - bitLength(size) + 64;
  const quotient = shift >= 0 ? (size << BigInt(shift)) / d : size / (d << BigInt(-shift));
  const value = Number(quotient) * 2 ** Math.max(-shift, -1000) * 2 ** Math.min(0, 1000 - shift);
  return n < 0n ? -value : value;
}

function bitLength(n) {
  return (n < 0n ? -n : n).toString(16).length * 4;
}

// Two floats whose sum lies within 2^-100 of a rational, and is it where it has few bits.
function pairNear(value) {
  const high = nearFloat(value);
  return { high, low: nearFloat(minus(value, ofFloat(high))) };
}

const ofPair = ({ high, low }) => plus(ofFloat(high), ofFloat(low));

// The two floats of a whole number of at most 62 bits times 2^exponent.
function pairOf(mantissa, exponent) {
  const high = Number(mantissa), low = Number(mantissa - BigInt(high));
  const power = 2 ** exponent;
  return { high: high * power, low: low * power };
}

// The greatest number of a paving that is not above a rational, as two floats.
function pairBelow(value) {
  const grid = floorOf(value.n << SCALE, value.d);
  if (grid > GREATEST) return pairOf((1n << BITS) - 1n, 450);
  if (grid < -GREATEST) return { high: -Infinity, low: 0 };
  const size = grid < 0n ? -grid : grid, bits = BigInt(size.toString(2).length);
  const shift = bits > BITS ? bits - BITS : 0n;
  const mantissa = floorOf(grid, 1n << shift);
  return pairOf(mantissa, Number(shift - SCALE));
}

// The least one that is not below it.
function pairAbove(value) {
  const opposite = pairBelow({ n: -value.n, d: value.d });
  return { high: -opposite.high, low: -opposite.low };
}

// A coordinate: a rational with the numbers next to it, so that comparisons with ends are exact.
function coordinate(value) {
  return { value, below: pairBelow(value), above: pairAbove(value) };
}

// The rational that a text means: m:e, a decimal, or a fraction; null where it is none of these.
function parsed(text) {
  const word = text.trim().replace("−", "-");
  let match = NUMBER_FORMS.dyadic.exec(word);
  if (match) return times(rational(BigInt(match[1])), powerOfTwo(BigInt(match[2])));
  match = NUMBER_FORMS.fraction.exec(word);
  if (match) return BigInt(match[2]) ? rational(BigInt(match[1]), BigInt(match[2])) : null;
  match = NUMBER_FORMS.decimal.exec(word);
  if (!match || !(match[2] + match[3]) || word.length > 400) return null;
  const digits = BigInt(match[2] + match[3]) * (match[1] === "-" ? -1n : 1n);
  const power = Number(match[4] || 0) - match[3].length;
  return power >= 0 ? rational(digits * 10n ** BigInt(power)) : rational(digits, 10n ** BigInt(-power));
}

// The whole number next to a rational on a side.
function wholeOf({ n, d }, up) {
  return up ? -floorOf(-n, d) : floorOf(n, d);
}

// The exponent of the leading decimal digit.
function leading({ n, d }) {
  const size = n < 0n ? -n : n;
  let place = size.toString().length - d.toString().length;
  const reached = place >= 0 ? size >= d * 10n ** BigInt(place) : size * 10n ** BigInt(-place) >= d;
  if (!reached) place -= 1;
  return place;
}

// A decimal of so many digits, rounded to a side; exact where the digits suffice.
function decimal(value, up, digits = 17) {
  if (value.n === 0n) return "0";
  const last = leading(value) - digits + 1;
  const scaled = last >= 0 ? rational(value.n, value.d * 10n ** BigInt(last)) :
    rational(value.n * 10n ** BigInt(-last), value.d);
  return placed(wholeOf(scaled, up), last);
}

// The text of whole·10^last, with an exponent where it is far from 1.
function placed(whole, last) {
  const sign = whole < 0n ? "-" : "";
  let digits = (whole < 0n ? -whole : whole).toString();
  if (digits === "0") return "0";
  const kept = digits.replace(/0+$/, "");
  last += digits.length - kept.length;
  digits = kept;
  const first = last + digits.length - 1;
  if (first < -7 || first > 20) {
    return sign + digits[0] + (digits.length > 1 ? "." + digits.slice(1) : "") + "e" + first;
  }
  if (last >= 0) return sign + digits + "0".repeat(last);
  digits = digits.padStart(1 - last, "0");
  return sign + digits.slice(0, last) + "." + digits.slice(last);
}
