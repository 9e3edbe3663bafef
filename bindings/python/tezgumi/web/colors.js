// Colors that readers who see colors differently tell apart, in light and dark.
//
// Loads go along cividis: J. Nuñez, C. Anderton and R. Renslow, "Optimizing colormaps with consideration for color vision
// deficiency", PLoS ONE 13(7), 2018. PEs have the seven colors of M. Okabe and K. Ito, "Color Universal Design", 2008, without
// black, with four patterns, which begin again after 28; where more than that are seen at once, they go along cividis too.

const CIVIDIS = [
  [0, 34, 78], [8, 51, 112], [53, 69, 108], [79, 87, 108], [102, 105, 112], [125, 124, 120], [148, 142, 119], [174, 163, 113],
  [200, 184, 102], [229, 207, 82], [254, 232, 56]];
const PE_COLORS = ["#0072b2", "#e69f00", "#009e73", "#cc79a7", "#56b4e9", "#d55e00", "#f0e442"];
const PATTERNS = 4;
const MOST_NAMED = PE_COLORS.length * PATTERNS;

// The color of a share from 0 to 1, as red, green and blue.
function loadColor(share) {
  const at = Math.min(Math.max(share, 0), 1) * (CIVIDIS.length - 1);
  const low = Math.min(Math.floor(at), CIVIDIS.length - 2);
  return CIVIDIS[low].map((part, k) => Math.round(part + (at - low) * (CIVIDIS[low + 1][k] - part)));
}

const css = (color) => `rgb(${color.join(" ")})`;

// The colors of the page as it is seen now: light, dark, or on paper.
function pageColors() {
  const style = getComputedStyle(document.documentElement);
  const names = ["paper", "sheet", "ink", "quiet", "faint", "mark", "measured", "decided", "least", "average"];
  return Object.fromEntries(names.map((name) => [name, style.getPropertyValue(`--${name}`).trim()]));
}

class PeColors {
  // Of so many PEs; along a scale, or each another color and pattern than its neighbors.
  constructor(pes, isScale) {
    this.pes = pes;
    this.isScale = isScale;
    this.tiles = new Map();
  }

  color(pe) {
    if (this.isScale) return css(loadColor(pe / Math.max(this.pes - 1, 1)));
    return PE_COLORS[pe % PE_COLORS.length];
  }

  // What to fill an area of a PE with: its color, with its pattern.
  fill(context, pe) {
    const kind = this.isScale ? 0 : Math.floor(pe / PE_COLORS.length) % PATTERNS;
    if (kind === 0) return this.color(pe);
    if (!this.tiles.has(pe)) this.tiles.set(pe, context.createPattern(patternTile(this.color(pe), kind), "repeat"));
    return this.tiles.get(pe);
  }

  // Black or white, whichever is read better on the color.
  ink(pe) {
    const parts = this.isScale ? loadColor(pe / Math.max(this.pes - 1, 1)) : hexParts(this.color(pe));
    return luminance(parts) < 0.18 ? "#ffffff" : "#000000";
  }
}

const hexParts = (text) => [1, 3, 5].map((at) => parseInt(text.slice(at, at + 2), 16));

function luminance(parts) {
  const linear = parts.map((part) => (part <= 10 ? part / 255 / 12.92 : ((part / 255 + 0.055) / 1.055) ** 2.4));
  return 0.2126 * linear[0] + 0.7152 * linear[1] + 0.0722 * linear[2];
}

// Stripes, rings or crosses on a color.
function patternTile(color, kind) {
  const tile = document.createElement("canvas");
  tile.width = tile.height = 12;
  const context = tile.getContext("2d");
  context.fillStyle = color;
  context.fillRect(0, 0, 12, 12);
  context.strokeStyle = luminance(hexParts(color)) < 0.45 ? "#ffffff" : "#1a1a1a";
  context.lineWidth = 1.6;
  context.beginPath();
  if (kind === 2) {
    context.arc(6, 6, 2.6, 0, 7);
  } else {
    for (const shift of [-12, 0, 12]) {
      context.moveTo(shift, 12);
      context.lineTo(shift + 12, 0);
      if (kind === 3) {
        context.moveTo(shift, 0);
        context.lineTo(shift + 12, 12);
      }
    }
  }
  context.stroke();
  return tile;
}
