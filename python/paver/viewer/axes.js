// Numbers on the axes. Ticks are exact: where their decimals get long, they are told as a base and small differences.

const LONG_LABEL = 9;

// A step of one digit that gives at most so many ticks over a span: 1, 2 or 5 times a power of ten.
function stepOf(span, most) {
  const place = leading(quotient(span, rational(BigInt(most))));
  for (const [digit, power] of [[1, place], [2, place], [5, place], [1, place + 1], [2, place + 1]]) {
    const step = parsed(`${digit}e${power}`);
    if (!isBelow(times(step, rational(BigInt(most))), span)) return { step, digit, power };
  }
  throw new Error("no step");
}

// Ticks between two rationals: their values with texts, and the base that the texts are added to, or null.
function ticksOf(low, high, most) {
  const { step, digit, power } = stepOf(minus(high, low), Math.max(2, Math.floor(most)));
  const first = wholeOf(quotient(low, step), true), last = wholeOf(quotient(high, step), false);
  const wholes = Array.from({ length: Math.max(0, Number(last - first) + 1) }, (_, k) => first + BigInt(k));
  const text = (whole) => placed(whole * BigInt(digit), power);
  const texts = wholes.map(text);
  const isShort = texts.every((label) => label.length <= LONG_LABEL);
  const middle = wholes[wholes.length >> 1];
  const labels = isShort ? texts : wholes.map((whole) => (whole > middle ? "+" : "") + text(whole - middle));
  const ticks = wholes.map((whole, k) => ({ value: times(rational(whole), step), label: labels[k].replaceAll("-", "−") }));
  return { ticks, base: isShort || !wholes.length ? null : text(middle).replaceAll("-", "−") };
}

const LEAST_ACROSS = 85, LEAST_UP = 55; // pixels of the page between two ticks

// The ticks of both axes of a pane; with one variable there is nothing to tell upward.
function marksOfPane(axes, { width, height, ratio }) {
  const across = marksOf(axes.x, width, width / ratio / LEAST_ACROSS), isOne = axes.x.variable === axes.y.variable;
  return { across, up: isOne ? { ticks: [], base: null } : marksOf(axes.y, height, height / ratio / LEAST_UP) };
}

// The ticks of an axis over so many pixels, each with its pixel.
function marksOf(axis, pixels, most) {
  const [low, high] = axis.sign > 0 ? [axis.value(0), axis.value(pixels)] : [axis.value(pixels), axis.value(0)];
  const { ticks, base } = ticksOf(low, high, most);
  const placedTicks = ticks.map(({ value, label }) => {
    const pair = pairNear(value);
    return { label, pixel: axis.pixel(pair.high, pair.low) };
  });
  return { ticks: placedTicks, base };
}
