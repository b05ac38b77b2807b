// Pictures of what is seen: a PNG of the panes as they stand, and an SVG whose cells are worked out anew at a quarter of a
// pixel, by the same rule.

const FINE = 4, LEGEND_HEIGHT = 34;
const escaped = (text) => text.replace(/[&<>"]/g, (letter) => `&#${letter.charCodeAt(0)};`);

function download(blob, name) {
  const link = document.createElement("a");
  link.href = URL.createObjectURL(blob);
  link.download = name;
  link.click();
  setTimeout(() => URL.revokeObjectURL(link.href), 10000);
}

// The panes, their captions and the legend in one image.
function pngOf(panes, legend, palette) {
  const ratio = panes[0].ratio, width = panes.reduce((sum, pane) => sum + pane.marks.width, 0);
  const height = panes[0].marks.height, canvas = document.createElement("canvas");
  Object.assign(canvas, { width, height: height + Math.round(LEGEND_HEIGHT * ratio) });
  const context = canvas.getContext("2d");
  context.fillStyle = palette.page;
  context.fillRect(0, 0, canvas.width, canvas.height);
  let left = 0;
  for (const pane of panes) {
    context.drawImage(pane.cells, left + Math.round(MARGINS.left * ratio), Math.round(MARGINS.top * ratio));
    context.drawImage(pane.marks, left, 0);
    left += pane.marks.width;
  }
  drawLegend(context, legend, palette, height, ratio);
  return new Promise((resolve) => canvas.toBlob(resolve, "image/png"));
}

function drawLegend(context, legend, palette, top, ratio) {
  let left = MARGINS.left * ratio;
  context.font = `${12.5 * ratio}px system-ui, sans-serif`;
  context.textBaseline = "middle";
  for (const [name, label] of legend) {
    context.fillStyle = palette[name];
    context.fillRect(left, top + 6 * ratio, 14 * ratio, 14 * ratio);
    context.strokeStyle = palette.faint;
    context.strokeRect(left, top + 6 * ratio, 14 * ratio, 14 * ratio);
    if (name === "open") drawHatch(context, left, top + 6 * ratio, 14 * ratio, palette);
    context.fillStyle = palette.ink;
    context.fillText(label, left + 20 * ratio, top + 13 * ratio);
    left += 36 * ratio + context.measureText(label).width;
  }
}

function drawHatch(context, left, top, side, palette) {
  context.strokeStyle = palette.hatch;
  context.beginPath();
  for (const part of [0.5, 1]) {
    context.moveTo(left, top + side * part);
    context.lineTo(left + side * part, top);
  }
  context.stroke();
}

// The classes of a pane's cells, FINE cells a pixel each way.
function fineClasses(pane, axes, levels) {
  const width = pane.width * FINE, height = pane.height * FINE;
  const finer = (axis) => new Axis(axis.variable, axis, axis.scale / FINE, axis.offset * FINE, axis.sign);
  const x = finer(axes.x), y = finer(axes.y);
  const layers = pane.layers.map(({ tree }) => {
    const bits = new Uint8Array(width * height);
    new Painter(tree, x, y, levels).paint(new Sheet(bits, width, 0, 0, width, height));
    return bits;
  });
  const classes = new Uint8Array(width * height);
  classify(layers, classes, 0, classes.length);
  return { classes, width, height };
}

// Each class's cells as the outlines of rectangles: runs of a row, grown down over rows that have the same run.
function outlinesOfClasses({ classes, width, height }) {
  const paths = CLASSES.map(() => []);
  let above = new Map();
  const close = (run) => paths[run.one].push(`M${run.left} ${run.top}h${run.right - run.left}v${run.rows}H${run.left}z`);
  for (let row = 0; row < height; row += 1) {
    const here = new Map();
    for (let left = 0, right; left < width; left = right) {
      const one = classes[row * width + left];
      for (right = left + 1; right < width && classes[row * width + right] === one;) right += 1;
      const key = (left * width + right) * 8 + one, run = above.get(key);
      above.delete(key);
      here.set(key, run ? Object.assign(run, { rows: run.rows + 1 }) : { one, left, right, top: row, rows: 1 });
    }
    above.forEach(close);
    above = here;
  }
  above.forEach(close);
  return paths.map((parts) => parts.join(""));
}

function svgOfPane(pane, axes, levels, how, left) {
  const { ratio } = pane, scale = 1 / ratio, width = pane.width / ratio, height = pane.height / ratio;
  const paths = outlinesOfClasses(fineClasses(pane, axes, levels));
  const lines = [`<g transform="translate(${left + MARGINS.left} ${MARGINS.top})">`,
    `<g transform="scale(${scale / FINE})" shape-rendering="crispEdges">`];
  paths.forEach((path, one) => {
    const fill = one === CLASS_OPEN ? "url(#open-cells)" : how.palette[CLASSES[one]];
    if (path) lines.push(`<path class="${CLASSES[one]}" d="${path}" fill="${fill}"/>`);
  });
  lines.push("</g>");
  if (how.edges) lines.push(svgOutlines(pane, axes, levels, how.palette));
  if (how.way) {
    const points = pixelsOfWay(axes, how.way).map((point) => point.map((x) => Math.round(x * scale * 100) / 100).join(","));
    lines.push(`<svg width="${width}" height="${height}"><polyline class="way" points="${points.join(" ")}" fill="none" ` +
      `stroke="${how.palette.pin}" stroke-width="2"/></svg>`);
  }
  lines.push(`<rect width="${width}" height="${height}" fill="none" stroke="${how.palette.ink}"/>`);
  lines.push(...svgTicks(axes, pane, how), "</g>");
  return lines.join("\n");
}

function svgOutlines(pane, axes, levels, palette) {
  const found = outlinesOf(pane, axes, levels), parts = [];
  const short = (value) => String(Math.round(value / pane.ratio * 100) / 100);
  for (let k = 0; k < found.length; k += 4) {
    const [x0, x1, y0, y1] = clippedOutline(found, k, pane.width, pane.height)
      .map((value, at) => Math.max(0, Math.min(value, at < 2 ? pane.width : pane.height)));
    parts.push(`M${short(x0)} ${short(y0)}H${short(x1)}V${short(y1)}H${short(x0)}z`);
  }
  return `<path d="${parts.join("")}" fill="none" stroke="${palette.line}" stroke-opacity="0.38" stroke-width="0.6"/>`;
}

function svgTicks(axes, pane, { palette, names }) {
  const width = pane.width / pane.ratio, height = pane.height / pane.ratio;
  const { across, up } = marksOfPane(axes, pane);
  const text = (x, y, anchor, words, more = "") =>
    `<text x="${x}" y="${y}" text-anchor="${anchor}" fill="${palette.ink}"${more}>${escaped(words)}</text>`;
  const lines = across.ticks.map(({ label, pixel }) => {
    const x = Math.round(pixel / pane.ratio * 100) / 100;
    return `<path d="M${x} ${height}v5" stroke="${palette.ink}"/>${text(x, height + 19, "middle", label)}`;
  });
  lines.push(...up.ticks.map(({ label, pixel }) => {
    const y = Math.round(pixel / pane.ratio * 100) / 100;
    return `<path d="M0 ${y}h-5" stroke="${palette.ink}"/>${text(-8, y + 4, "end", label)}`;
  }));
  lines.push(text(width / 2, height + 42, "middle", axisName(names.x, across.base), ' font-weight="600"'));
  const turned = ` font-weight="600" transform="rotate(-90 -68 ${height / 2})"`;
  lines.push(text(-68, height / 2, "middle", axisName(names.y, up.base), turned));
  return lines;
}

// Slanted lines as a pattern, in units that are so many times smaller.
function svgHatch(id, times, palette) {
  const size = 'width="6" height="6" patternUnits="userSpaceOnUse"';
  return `<pattern id="${id}" ${size} patternTransform="scale(${times}) rotate(45)">` +
    `<rect width="6" height="6" fill="${palette.open}"/><rect width="1" height="6" fill="${palette.hatch}"/></pattern>`;
}

function svgLegend(legend, palette, top) {
  let left = MARGINS.left;
  return legend.map(([name, label]) => {
    const fill = name === "open" ? "url(#open)" : palette[name];
    const line = `<rect x="${left}" y="${top}" width="14" height="14" fill="${fill}" stroke="${palette.faint}"/>` +
      `<text x="${left + 20}" y="${top + 12}" fill="${palette.ink}">${escaped(label)}</text>`;
    left += 44 + 7 * label.length;
    return line;
  });
}

// The text of an SVG of all panes.
function svgOf(panes, axes, levels, how, title) {
  const sizes = panes.map((pane) => pane.marks.width / pane.ratio), height = panes[0].marks.height / panes[0].ratio;
  const width = sizes.reduce((a, b) => a + b, 0), whole = height + LEGEND_HEIGHT;
  let left = 0;
  const parts = panes.map((pane, k) => {
    const part = svgOfPane(pane, axes, levels, how, left);
    left += sizes[k];
    return part;
  });
  return [`<svg xmlns="http://www.w3.org/2000/svg" width="${width}" height="${whole}" viewBox="0 0 ${width} ${whole}" ` +
    'font-family="sans-serif" font-size="12.5">', `<title>${escaped(title)}</title>`,
  `<defs>${svgHatch("open", 1, how.palette)}${svgHatch("open-cells", FINE * panes[0].ratio, how.palette)}</defs>`,
  `<rect width="100%" height="100%" fill="${how.palette.page}"/>`, ...parts,
  ...svgLegend(how.legend, how.palette, height + 8), "</svg>", ""].join("\n");
}
