// The pictures of all rounds: maps of loads, lines, and bars. They share their left edge and the place of each round.

const LEFT = 58;
const WIDEST_ROUND = 110;
const MAP_HIGHEST = 260;

// Where the rounds stand in a picture of this width.
function roundScale(width, count) {
  const each = Math.min((width - LEFT - 10) / count, WIDEST_ROUND);
  return { each, left: LEFT, right: LEFT + each * count, at: (r) => LEFT + each * r, middle: (r) => LEFT + each * (r + 0.5) };
}

// A map: across rounds, down PEs. Where several rounds or PEs fall on one dot, the dot has the greatest of their loads.
function drawMap(canvas, facts, side, greatest, chosen) {
  const pes = facts.reduce((most, one) => Math.max(most, one[side]?.pes ?? 0), 1);
  const mapHeight = Math.round(Math.min(Math.max(pes * 14, 42), MAP_HIGHEST));
  const { context, width } = ready(canvas, mapHeight + 30);
  const colors = pageColors();
  const scale = roundScale(width, facts.length);
  context.drawImage(mapImage(facts, side, greatest, pes, scale, mapHeight), scale.left, 6, scale.right - scale.left, mapHeight);
  context.strokeStyle = colors.faint;
  context.strokeRect(scale.left - 0.5, 5.5, scale.right - scale.left + 1, mapHeight + 1);
  labelPes(context, pes, mapHeight, colors);
  labelRounds(context, facts.length, scale, mapHeight + 18, colors);
  markRound(context, scale, chosen, 6, mapHeight, colors);
}

// The last image of each side: it stays as it is while rounds are chosen.
const mapImages = new Map();

function mapImage(facts, side, greatest, pes, scale, mapHeight) {
  const sharp = window.devicePixelRatio || 1;
  const across = Math.max(1, Math.min(Math.round((scale.right - scale.left) * sharp), facts.length));
  const down = Math.max(1, Math.min(Math.round(mapHeight * sharp), pes));
  const known = mapImages.get(side);
  if (known?.across === across && known.down === down) return known.image;
  const image = newMapImage(facts, side, greatest, pes, across, down);
  mapImages.set(side, { across, down, image });
  return image;
}

function newMapImage(facts, side, greatest, pes, across, down) {
  const image = new ImageData(across, down);
  const most = new Float64Array(across * down).fill(-1);
  facts.forEach((one, r) => {
    const x = Math.floor((r * across) / facts.length);
    one[side]?.loads.forEach((load, pe) => {
      const dot = Math.floor((pe * down) / pes) * across + x;
      most[dot] = Math.max(most[dot], Number(load));
    });
  });
  most.forEach((load, dot) => {
    if (load >= 0) image.data.set([...loadColor(load / Math.max(greatest, 1)), 255], 4 * dot);
  });
  return enlarged(image, across, down);
}

// The image as a canvas, dot by dot: it is drawn larger without a blur.
function enlarged(image, across, down) {
  const small = document.createElement("canvas");
  small.width = across;
  small.height = down;
  small.getContext("2d").putImageData(image, 0, 0);
  const factorX = Math.max(1, Math.floor(2400 / across));
  const factorY = Math.max(1, Math.floor(1040 / down));
  const large = document.createElement("canvas");
  large.width = across * factorX;
  large.height = down * factorY;
  const context = large.getContext("2d");
  context.imageSmoothingEnabled = false;
  context.drawImage(small, 0, 0, large.width, large.height);
  return large;
}

function labelPes(context, pes, mapHeight, colors) {
  context.fillStyle = colors.quiet;
  context.textAlign = "right";
  for (const pe of wholeTicks(0, pes - 1, Math.max(mapHeight / 20, 1))) {
    context.fillText(`PE ${pe}`, LEFT - 6, 6 + ((pe + 0.5) * mapHeight) / pes);
  }
}

function labelRounds(context, count, scale, y, colors) {
  context.fillStyle = colors.quiet;
  context.textAlign = "center";
  const room = Math.max((scale.right - scale.left) / (10 * String(count).length + 10), 1);
  for (const number of wholeTicks(1, count, room)) {
    const half = context.measureText(told(number)).width / 2;
    context.fillText(told(number), Math.min(scale.middle(number - 1), scale.right + 9 - half), y);
  }
  context.textAlign = "right";
  context.fillText("round", LEFT - 6, y);
}

// A frame around the chosen round.
function markRound(context, scale, chosen, top, height, colors) {
  const wide = Math.max(scale.each, 3);
  const left = scale.middle(chosen) - wide / 2;
  context.lineWidth = 2;
  context.strokeStyle = colors.paper;
  context.strokeRect(left - 1, top - 2, wide + 2, height + 4);
  context.lineWidth = 1.5;
  context.strokeStyle = colors.mark;
  context.strokeRect(left, top - 3, wide, height + 6);
  context.lineWidth = 1;
}

// The frame of lines and bars: an axis with numbers, of counts whole ones, and the rounds below.
function drawFrame(canvas, facts, top, unit, chosen, isCount = false) {
  const height = 150;
  const { context, width } = ready(canvas, height + 34);
  const colors = pageColors();
  const scale = roundScale(width, facts.length);
  const y = (value) => 8 + height - (Math.min(value / (top || 1), 1.02) * height) / 1.04;
  context.textAlign = "right";
  for (const tick of ticks(top, isCount ? Math.min(4, Math.max(top, 1)) : 4)) {
    context.fillStyle = colors.quiet;
    context.fillText(toldFew(tick) + unit, LEFT - 6, y(tick));
    context.fillStyle = colors.faint;
    context.fillRect(LEFT, Math.round(y(tick)), scale.right - LEFT, 1);
  }
  labelRounds(context, facts.length, scale, height + 24, colors);
  context.fillStyle = colors.sheet;
  context.globalAlpha = 0.8;
  context.fillRect(scale.middle(chosen) - Math.max(scale.each, 3) / 2, 8, Math.max(scale.each, 3), height);
  context.globalAlpha = 1;
  return { context, scale, y, colors, height };
}

// The lines of a picture: a name, a color, dashes, a shape for each point where there is room, and a value or null for each round.
const SHAPES = {
  disc: (context, x, y) => context.arc(x, y, 3.2, 0, 7),
  square: (context, x, y) => context.rect(x - 3, y - 3, 6, 6),
  none: () => undefined,
};

function drawLines(canvas, facts, lines, unit, chosen) {
  const top = lines.reduce((most, line) => greatestValueOf(line.values, most), 0);
  const { context, scale, y, colors, height } = drawFrame(canvas, facts, top, unit, chosen);
  for (const line of lines) {
    strokeLine(context, line, scale, y, colors);
    if (scale.each >= 7) markPoints(context, line, scale, y, colors);
  }
  markRound(context, scale, chosen, 8, height, colors);
}

const greatestValueOf = (values, least) => values.reduce((most, value) => (value > most ? value : most), least);

function strokeLine(context, line, scale, y, colors) {
  context.strokeStyle = colors[line.color];
  context.lineWidth = line.width ?? 2;
  context.setLineDash(line.dashes);
  context.lineJoin = "round";
  context.beginPath();
  let drawn = false;
  line.values.forEach((value, r) => {
    if (value !== null) {
      if (drawn) context.lineTo(scale.middle(r), y(value));
      else context.moveTo(scale.middle(r) - (line.values.length === 1 ? 14 : 0), y(value));
      if (line.values.length === 1) context.lineTo(scale.middle(r) + 14, y(value));
    }
    drawn = value !== null;
  });
  context.stroke();
  context.setLineDash([]);
  context.lineWidth = 1;
}

function markPoints(context, line, scale, y, colors) {
  context.fillStyle = colors[line.color];
  line.values.forEach((value, r) => {
    if (value === null) return;
    context.beginPath();
    SHAPES[line.shape](context, scale.middle(r), y(value));
    context.fill();
  });
}

function drawBars(canvas, facts, values, chosen) {
  const top = greatestValueOf(values, 0);
  const { context, scale, y, colors, height } = drawFrame(canvas, facts, top, "", chosen, true);
  context.fillStyle = colors.decided;
  context.strokeStyle = colors.decided;
  const wide = Math.max(scale.each * 0.7, 1);
  values.forEach((value, r) => {
    const bar = [scale.middle(r) - wide / 2, y(value), wide, y(0) - y(value)];
    // What was planned here is an outline, as nobody says that it moved.
    if (value && isPlannedHere(facts[r])) context.strokeRect(...bar);
    else if (value) context.fillRect(...bar);
  });
  markRound(context, scale, chosen, 8, height, colors);
}

// The round under a point of a picture, or null.
function roundAt(canvas, count, x) {
  const scale = roundScale(canvas.clientWidth, count);
  const r = Math.floor((x - scale.left) / scale.each);
  return r >= 0 && r < count ? r : null;
}

// What the pictures of all rounds are drawn from.
function greatestLines(facts) {
  const values = (side) => facts.map((one) => (one[side] === null ? null : Number(one[side].greatest)));
  return [
    { name: "greatest, as measured", color: "measured", dashes: [], shape: "disc", values: values("before") },
    { name: "greatest, as decided", color: "decided", dashes: [], shape: "square", width: 3, values: values("after") },
    { name: "least possible", color: "least", dashes: [2, 3], shape: "none", width: 1.5,
      values: facts.map((one) => (one.least === null ? null : Number(one.least))) },
    { name: "average", color: "average", dashes: [8, 4], shape: "none", width: 1.5,
      values: facts.map((one) => Number(one.average)) },
  ];
}

function imbalanceLines(facts) {
  const values = (side) => facts.map((one) => (one[side] === null ? null : Number(one[side].excess)));
  return [
    { name: "as measured", color: "measured", dashes: [], shape: "disc", values: values("before") },
    { name: "as decided", color: "decided", dashes: [], shape: "square", width: 3, values: values("after") },
  ];
}

function drawLegend(id, lines) {
  const colors = pageColors();
  const row = document.getElementById(id);
  row.replaceChildren(...lines.map((line) => {
    const sample = document.createElement("canvas");
    const context = smallCanvas(sample, 34, 12);
    strokeLine(context, { ...line, values: [0, 0] }, { middle: (r) => 2 + 30 * r }, () => 6, colors);
    markPoints(context, { ...line, values: [0] }, { middle: () => 17 }, () => 6, colors);
    return labelled(sample, line.name);
  }));
}

function smallCanvas(canvas, width, height) {
  const sharp = window.devicePixelRatio || 1;
  canvas.width = width * sharp;
  canvas.height = height * sharp;
  Object.assign(canvas.style, { width: `${width}px`, height: `${height}px` });
  const context = canvas.getContext("2d");
  context.scale(sharp, sharp);
  return context;
}

function labelled(sample, text) {
  const label = document.createElement("span");
  label.append(sample, text);
  return label;
}

// The colors of loads, from 0 to the greatest.
function drawScale(greatest) {
  const sample = document.createElement("canvas");
  const context = smallCanvas(sample, 160, 12);
  for (let x = 0; x < 160; x++) {
    context.fillStyle = css(loadColor(x / 159));
    context.fillRect(x, 0, 1.5, 12);
  }
  const label = labelled(sample, told(greatest));
  label.prepend("load 0");
  document.getElementById("scale").replaceChildren(label);
}
