// What the pictures share: a canvas as sharp as the screen, axes, and a part of a line that one goes along and nearer.

const FONT = "12px system-ui, 'Segoe UI', Roboto, 'DejaVu Sans', sans-serif";
const SMALL = "11px system-ui, 'Segoe UI', Roboto, 'DejaVu Sans', sans-serif";

// Makes a canvas ready to be drawn on, so many pixels high, and as wide as the page lets it be.
function ready(canvas, height) {
  const width = Math.max(canvas.parentElement.clientWidth, 120);
  const sharp = window.devicePixelRatio || 1;
  canvas.width = Math.round(width * sharp);
  canvas.height = Math.round(height * sharp);
  canvas.style.height = `${height}px`;
  const context = canvas.getContext("2d");
  context.setTransform(sharp, 0, 0, sharp, 0, 0);
  context.font = FONT;
  context.textBaseline = "middle";
  return { context, width, height };
}

// Round numbers from 0 to the top, about so many.
function ticks(top, many) {
  if (!(top > 0)) return [0];
  const rough = top / many;
  const power = 10 ** Math.floor(Math.log10(rough));
  const step = [1, 2, 2.5, 5, 10].map((digit) => digit * power).find((one) => one >= rough * 0.999);
  const found = [];
  for (let k = 0; k * step <= top * 1.0001; k++) found.push(k * step);
  return found;
}

// Whole numbers from the first to the last, each or each second, fifth, tenth .., as there is room for.
function wholeTicks(first, last, room) {
  let step = 1;
  for (let k = 0; k < 29; k++) {
    step = [1, 2, 5][k % 3] * 10 ** Math.floor(k / 3);
    if ((last - first) / step <= room) break;
  }
  const found = [];
  for (let k = Math.ceil(first / step) * step; k <= last; k += step) found.push(k);
  return found;
}

// The part of a line from 0 to `whole` that is shown. The least part that one comes near to is `least`.
class Part {
  constructor(whole, least, changed) {
    Object.assign(this, { whole, least, changed, from: 0, to: whole });
  }

  show(from, to) {
    const long = Math.min(Math.max(to - from, this.least), this.whole);
    this.from = Math.min(Math.max(from, 0), this.whole - long);
    this.to = this.from + long;
    this.changed();
  }

  // Nearer, by a factor below 1, or farther, with the point at this share of the part where it is.
  scale(factor, share = 0.5) {
    const point = this.from + share * (this.to - this.from);
    const long = Math.min(Math.max((this.to - this.from) * factor, this.least), this.whole);
    this.show(point - share * long, point + (1 - share) * long);
  }

  along(share) {
    const step = share * (this.to - this.from);
    this.show(this.from + step, this.to + step);
  }
}

// Lets the reader go along a part by dragging, the wheel (with Ctrl, or where the canvas has the focus), and the keys.
function handle(canvas, part, margin) {
  let last = null;
  const inner = () => canvas.clientWidth - margin.left - margin.right;
  const shareAt = (event) => Math.min(Math.max((event.offsetX - margin.left) / inner(), 0), 1);
  canvas.addEventListener("pointerdown", (event) => {
    last = event.offsetX;
    canvas.setPointerCapture(event.pointerId);
  });
  canvas.addEventListener("pointermove", (event) => {
    if (last === null || event.buttons === 0) return;
    part().along((last - event.offsetX) / inner());
    last = event.offsetX;
  });
  canvas.addEventListener("pointerup", () => { last = null; });
  canvas.addEventListener("wheel", (event) => {
    if (!event.ctrlKey && document.activeElement !== canvas) return;
    event.preventDefault();
    part().scale(Math.exp(Math.min(Math.max(event.deltaY, -200), 200) / 300), shareAt(event));
  }, { passive: false });
  const keys = {
    "+": () => part().scale(1 / 1.6), "=": () => part().scale(1 / 1.6), "-": () => part().scale(1.6),
    "0": () => part().show(0, part().whole), ArrowLeft: () => part().along(-0.2), ArrowRight: () => part().along(0.2),
  };
  canvas.addEventListener("keydown", (event) => {
    if (!keys[event.key] || event.ctrlKey || event.metaKey || event.altKey) return;
    event.preventDefault();
    event.stopPropagation();
    keys[event.key]();
  });
}

function zoomButtons(name, part) {
  const press = (id, act) => document.getElementById(`${name}-${id}`).addEventListener("click", act);
  press("in", () => part().scale(0.5));
  press("out", () => part().scale(2));
  press("whole", () => part().show(0, part().whole));
}

// A bar that shows which part of the whole is seen.
function drawPartBar(context, part, left, top, width, colors) {
  context.fillStyle = colors.faint;
  context.fillRect(left, top, width, 4);
  context.fillStyle = colors.mark;
  const scale = width / part.whole;
  context.fillRect(left + part.from * scale, top, Math.max((part.to - part.from) * scale, 2), 4);
}

// Text that is cut off to a width.
function fits(context, text, width) {
  return context.measureText(text).width <= width;
}
