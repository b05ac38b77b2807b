// A pane: the pixels of one paving, or of several over each other, with axes around them.

const MARGINS = { left: 84, right: 18, top: 14, bottom: 52 };
const LEAST_OUTLINE = 5, MOST_OUTLINES = 40000, MOST_SPECKS = 300, CIRCLE = 9;

class Pane {
  constructor(host, caption) {
    this.element = document.createElement("figure");
    this.element.className = "pane";
    this.cells = document.createElement("canvas");
    this.cells.className = "cells";
    this.marks = document.createElement("canvas");
    this.marks.className = "marks";
    this.caption = document.createElement("figcaption");
    this.caption.textContent = caption;
    this.element.append(this.cells, this.marks, this.caption);
    host.append(this.element);
    this.layers = [];
  }

  // Takes its place in the page: sizes in pixels of the screen.
  resize(ratio) {
    const { clientWidth, clientHeight } = this.element;
    this.ratio = ratio;
    this.width = Math.max(16, Math.round((clientWidth - MARGINS.left - MARGINS.right) * ratio));
    this.height = Math.max(16, Math.round((clientHeight - MARGINS.top - MARGINS.bottom) * ratio));
    Object.assign(this.cells, { width: this.width, height: this.height });
    Object.assign(this.cells.style, { width: `${this.width / ratio}px`, height: `${this.height / ratio}px` });
    Object.assign(this.marks, { width: Math.round(clientWidth * ratio), height: Math.round(clientHeight * ratio) });
    this.image = this.cells.getContext("2d").createImageData(this.width, this.height);
    this.words = new Uint32Array(this.image.data.buffer);
    this.show(this.layers.map((layer) => layer.tree));
  }

  show(trees) {
    const size = this.width * this.height;
    this.layers = trees.map((tree) => ({ tree, bits: new Uint8Array(size) }));
    this.classes = new Uint8Array(size);
  }

  // Draws all pixels anew, or after a move of whole pixels those that came into sight.
  paint(axes, levels, move, palette) {
    const { width, height, layers, classes, words } = this, whole = new Sheet(null, width, 0, 0, width, height);
    const isMove = move && Math.abs(move.x) < width && Math.abs(move.y) < height;
    const parts = isMove ? exposed(whole, move) : [whole], brush = new Brush(palette, this.ratio);
    if (isMove) {
      for (const buffer of [...layers.map(({ bits }) => bits), classes, words]) shift(buffer, move.y * width + move.x);
    }
    for (const { tree, bits } of layers) {
      const painter = new Painter(tree, axes.x, axes.y, levels);
      for (const part of parts) painter.paint(Object.assign(part, { bits }));
    }
    for (const part of parts) this.colour(part, brush, axes.x.offset + axes.y.offset);
    this.cells.getContext("2d").putImageData(this.image, 0, 0);
  }

  colour(part, brush, slant) {
    const buffers = this.layers.map(({ bits }) => bits), length = part.right - part.left;
    for (let row = part.top, at = part.start; row < part.bottom; row += 1, at += part.stride) {
      classify(buffers, this.classes, at, at + length);
      brush.paint(this.classes, this.words, at, at + length, slant + part.left + row);
    }
  }

  // Axes, outlines of boxes and what is pinned, over the pixels.
  decorate(axes, levels, how) {
    const context = this.marks.getContext("2d"), { ratio, width, height } = this;
    context.setTransform(1, 0, 0, 1, 0, 0);
    context.clearRect(0, 0, this.marks.width, this.marks.height);
    context.translate(Math.round(MARGINS.left * ratio), Math.round(MARGINS.top * ratio));
    context.save();
    context.beginPath();
    context.rect(0, 0, width, height);
    context.clip();
    if (how.edges) this.drawOutlines(context, axes, levels, how.palette);
    this.drawCircles(context, how.palette);
    if (how.way) this.drawWay(context, axes, how.way, how.palette);
    if (how.pinned) this.drawFrame(context, axes, how.pinned, how.palette, []);
    if (how.pointed) this.drawFrame(context, axes, how.pointed, how.palette, [5, 3]);
    context.restore();
    drawAxes(context, marksOfPane(axes, this), width, height, ratio, how);
  }

  drawOutlines(context, axes, levels, palette) {
    const found = outlinesOf(this, axes, levels);
    context.strokeStyle = palette.line;
    context.globalAlpha = 0.38;
    context.lineWidth = Math.max(1, Math.round(0.6 * this.ratio));
    context.beginPath();
    for (let k = 0; k < found.length; k += 4) {
      const [x0, x1, y0, y1] = clippedOutline(found, k, this.width, this.height).map(Math.round);
      context.rect(x0 + 0.5, y0 + 0.5, x1 - x0, y1 - y0);
    }
    context.stroke();
    context.globalAlpha = 1;
  }

  // Circles around what is kept where that is a few pixels alone, which eyes would miss.
  drawCircles(context, palette) {
    const kept = [], { classes, width, ratio } = this;
    for (let at = 0; at < classes.length && kept.length <= MOST_SPECKS; at += 1) {
      const isKept = classes[at] > CLASS_REMOVED && classes[at] < CLASS_REMOVED_BY_SOME;
      if (isKept) kept.push([at % width + 0.5, Math.floor(at / width) + 0.5]);
    }
    if (kept.length > MOST_SPECKS) return;
    const around = [];
    for (const speck of kept) {
      if (around.every(([x, y]) => Math.hypot(x - speck[0], y - speck[1]) > CIRCLE * ratio)) around.push(speck);
    }
    context.strokeStyle = palette.ink;
    context.lineWidth = ratio;
    for (const [x, y] of around) {
      context.beginPath();
      context.arc(x, y, CIRCLE * ratio, 0, 2 * Math.PI);
      context.stroke();
    }
  }

  // A way, as it is seen along the two axes.
  drawWay(context, axes, way, palette) {
    context.strokeStyle = palette.pin;
    context.lineWidth = 2 * this.ratio;
    context.beginPath();
    for (const [x, y] of pixelsOfWay(axes, way)) context.lineTo(x, y);
    context.stroke();
  }

  // The frame of a box that is kept, or of a neighbour that is pointed at, with dashes.
  drawFrame(context, axes, { tree, found }, palette, dashes) {
    if (!this.layers.some((layer) => layer.tree === tree)) return;
    const part = partOf(found), place = (axis, side) => part[2 * axis.variable + side];
    const at = (axis, side) => axis.pixel(tree.high[place(axis, side)], tree.low[place(axis, side)]);
    const limit = (value, most) => Math.max(-20, Math.min(most + 20, value));
    const [x0, x1] = [at(axes.x, 0), at(axes.x, 1)].map((value) => limit(value, this.width));
    const [y1, y0] = [at(axes.y, 0), at(axes.y, 1)].map((value) => limit(value, this.height));
    const grown = Math.max(0, 7 - Math.max(x1 - x0, y1 - y0)) / 2 * this.ratio;
    context.strokeStyle = palette.pin;
    context.lineWidth = 2 * this.ratio;
    context.setLineDash(dashes.map((length) => length * this.ratio));
    context.strokeRect(x0 - grown, y0 - grown, x1 - x0 + 2 * grown, y1 - y0 + 2 * grown);
    context.setLineDash([]);
  }
}

// The outlines of the boxes in sight. There are none if lines of a pixel could cover the picture, as those of boxes that lie
// on each other do.
function outlinesOf({ layers, width, height, ratio }, axes, levels) {
  const outliner = new Outliner(layers[0].tree, axes.x, axes.y, levels, LEAST_OUTLINE * ratio, MOST_OUTLINES);
  outliner.begin(new Sheet(null, width, 0, 0, width, height));
  return lengthOf(outliner.found, width, height) * ratio > width * height ? [] : outliner.found;
}

// The length of the lines of outlines within the picture.
function lengthOf(found, width, height) {
  let length = 0;
  for (let k = 0; k < found.length; k += 4) {
    const [x0, x1, y0, y1] = clippedOutline(found, k, width, height);
    length += 2 * (x1 - x0 + y1 - y0);
  }
  return length;
}

function clippedOutline(found, k, width, height) {
  const [x0, x1, y0, y1] = found.slice(k, k + 4);
  return [Math.max(x0, -9), Math.min(x1, width + 9), Math.max(y0, -9), Math.min(y1, height + 9)];
}

// Moves what stands in a buffer, by so many places.
function shift(buffer, step) {
  buffer.copyWithin(Math.max(0, step), Math.max(0, -step), buffer.length - Math.max(0, step));
}

// The rows and columns that a move brings into sight.
function exposed(sheet, { x, y }) {
  const { right, bottom } = sheet, parts = [];
  if (x > 0) parts.push(sheet.part(0, 0, x, bottom));
  if (x < 0) parts.push(sheet.part(right + x, 0, right, bottom));
  if (y > 0) parts.push(sheet.part(0, 0, right, y));
  if (y < 0) parts.push(sheet.part(0, bottom + y, right, bottom));
  return parts;
}

// The frame, ticks, numbers and names.
function drawAxes(context, { across, up }, width, height, ratio, { palette, names }) {
  const size = 12.5 * ratio, long = 5 * ratio;
  context.strokeStyle = context.fillStyle = palette.ink;
  context.lineWidth = Math.max(1, Math.round(ratio));
  context.strokeRect(-0.5, -0.5, width + 1, height + 1);
  context.font = `${size}px system-ui, sans-serif`;
  context.textAlign = "center";
  context.textBaseline = "top";
  for (const { label, pixel } of across.ticks) {
    context.fillRect(Math.round(pixel), height, Math.max(1, ratio), long);
    context.fillText(label, pixel, height + long + 3 * ratio);
  }
  context.textAlign = "right";
  context.textBaseline = "middle";
  for (const { label, pixel } of up.ticks) {
    context.fillRect(-long, Math.round(pixel), long, Math.max(1, ratio));
    context.fillText(label, -long - 3 * ratio, pixel);
  }
  context.font = `600 ${size}px system-ui, sans-serif`;
  context.textAlign = "center";
  context.fillText(axisName(names.x, across.base), width / 2, height + 38 * ratio);
  context.save();
  context.translate(-72 * ratio, height / 2);
  context.rotate(-Math.PI / 2);
  context.fillText(axisName(names.y, up.base), 0, 0);
  context.restore();
}

const axisName = (name, base) => (base === null ? name : `${name}  =  ${base} + …`);
