/*
 * Draws a piece of the map on a canvas: what lies in its box alone, in the same way on the screen and on paper.
 *
 * What was added, changed or removed is told by colour, and beside it by a pattern, dashes, a sign or a word.
 */

/** @typedef {{parcels: boolean, strings: boolean, points: boolean, changes: boolean}} Layers  Which are shown. */
/**
 * @typedef {object} Sheet
 * @property {CanvasRenderingContext2D} context
 * @property {Box} box  what it shows
 * @property {number} scale  pixels a millimetre
 * @property {number} width  pixels of the page
 * @property {number} height
 * @property {number} ratio  pixels of the canvas for each of the page
 * @property {number} spacing  pixels between neighbouring points, mostly
 * @property {boolean} isFar  positions may be so many pixels away that a canvas draws them wrongly
 */

const COLOURS = {
  outside: '#e6e4dd', ground: '#fffdf6', line: '#33312c', number: '#1b1a18', label: '#4a463e', selected: '#0b57d0',
  added: '#14782a', changed: '#8a5200', removed: '#c4161c', addedGround: '#dff2dc', changedGround: '#fff1c9',
};
const LETTERS = 'system-ui, "Segoe UI", "Noto Sans", "DejaVu Sans", "Liberation Sans", sans-serif';
const FONTS = {
  number: `600 13px ${LETTERS}`, label: `12px ${LETTERS}`, small: `600 10px ${LETTERS}`, point: `10px ${LETTERS}`,
};
const LINE_HEIGHT = 15;
const FAR = 1e6; // Pixels; a canvas keeps 24 bits of a position.
const POINTS_FROM = 36; // The spacing in pixels from which points are drawn, and their numbers.
const POINT_NUMBERS_FROM = 110;
const POINT_ROOM = 64; // Square pixels that each point of a sheet needs.
const PATTERN = 8; // Pixels; a tile's side is a multiple of it.
const HEIGHTS = [0.5, 0.4, 0.6, 0.3, 0.7, 0.2, 0.8]; // Where in a parcel's box a label is tried.
/** @type {Map<string, CanvasPattern>} */
const patterns = new Map();
/** @type {Map<string, number>} */
const widths = new Map();
/** @typedef {{lines: Line[], at: Position}} Label */
/** @type {{key: string, of: Map<number, Label | null>}}  Labels of one scale, by their parcels. */
const labels = { key: '', of: new Map() };

/**
 * Draws all layers that are shown.
 * @param {Plan} plan
 * @param {Sheet} sheet
 * @param {Layers} layers
 */
function drawMap(plan, sheet, layers) {
  const { context, ratio } = sheet;
  context.setTransform(ratio, 0, 0, ratio, 0, 0);
  context.fillStyle = COLOURS.outside;
  context.fillRect(0, 0, sheet.width, sheet.height);
  context.lineJoin = 'round';
  const since = layers.changes ? plan.since : null;
  if (layers.parcels) {
    drawGround(plan, sheet, since !== null);
  }
  if (since && layers.strings) {
    drawLines(since, sheet, () => 'removed');
  }
  if (layers.strings) {
    drawLines(plan, sheet, (place) => since ? wordOf(plan, 'string', place) : undefined);
  }
  if (layers.points) {
    drawPoints(plan, sheet, since);
  }
  if (layers.parcels) {
    drawLabels(plan, sheet, since !== null);
  }
}

// ---- Positions on the sheet

/**
 * @param {Sheet} sheet
 * @param {number} x
 * @returns {number}
 */
function across(sheet, x) {
  return (x - sheet.box.west) * sheet.scale;
}

/**
 * @param {Sheet} sheet
 * @param {number} y
 * @returns {number}
 */
function down(sheet, y) {
  return (sheet.box.north - y) * sheet.scale;
}

/**
 * What lies on the sheet or so many pixels beside it.
 * @param {Sheet} sheet
 * @param {number} by
 * @returns {Box}
 */
function around(sheet, by) {
  return widened(sheet.box, by / sheet.scale);
}

/**
 * The bounds outside of which lines needn't be drawn.
 * @param {Sheet} sheet
 */
function bounds(sheet) {
  return L.bounds([-50, -50], [sheet.width + 50, sheet.height + 50]);
}

/**
 * Adds a line to the path.
 * @param {Sheet} sheet
 * @param {number[]} ends  two positions
 */
function addLine(sheet, [x1, y1, x2, y2]) {
  let [a, b] = [{ x: across(sheet, x1), y: down(sheet, y1) }, { x: across(sheet, x2), y: down(sheet, y2) }];
  if (sheet.isFar) {
    const clipped = L.LineUtil.clipSegment(L.point(a.x, a.y), L.point(b.x, b.y), bounds(sheet));
    if (!clipped) {
      return;
    }
    [a, b] = clipped;
  }
  sheet.context.moveTo(a.x, a.y);
  sheet.context.lineTo(b.x, b.y);
}

/**
 * Adds a parcel's rings to the path. Each ends with a line to where it began: Chromium's `closePath` takes time by the
 * length of the whole path.
 * @param {Sheet} sheet
 * @param {Geometry} geometry
 * @param {number} place
 */
function addParcel(sheet, { points: { x, y }, parcels, ringBoxes }, place) {
  const { context } = sheet;
  const box = around(sheet, 10);
  for (let ring = parcels.ringsFrom[place]; ring < parcels.ringsFrom[place + 1]; ring++) {
    if (!meets(ringBoxes, ring, box)) {
      continue;
    }
    const corners = parcels.corners.subarray(parcels.cornersFrom[ring], parcels.cornersFrom[ring + 1]);
    if (sheet.isFar) {
      const all = Array.from(corners, (it) => L.point(across(sheet, x[it]), down(sheet, y[it])));
      /** @type {Position[]} */
      const clipped = L.PolyUtil.clipPolygon(all, bounds(sheet));
      [...clipped, ...clipped.slice(0, 1)].forEach((it, place) =>
        (place ? context.lineTo(it.x, it.y) : context.moveTo(it.x, it.y)));
    } else {
      const last = corners[corners.length - 1];
      context.moveTo(across(sheet, x[last]), down(sheet, y[last]));
      for (const corner of corners) {
        context.lineTo(across(sheet, x[corner]), down(sheet, y[corner]));
      }
    }
  }
}

// ---- Ground

/**
 * Fills the parcels: all at once, so that no seams show between them, and then those that changed.
 * @param {Plan} plan
 * @param {Sheet} sheet
 * @param {boolean} areChangesShown
 */
function drawGround(plan, sheet, areChangesShown) {
  const { context } = sheet;
  /** @type {Record<string, number[]>} */
  const places = { added: [], changed: [] };
  context.beginPath();
  eachIn(plan.trees.parcel, sheet.box, (place) => {
    addParcel(sheet, plan, place);
    const word = areChangesShown ? wordOf(plan, 'parcel', place) : undefined;
    if (word) {
      places[word].push(place);
    }
  });
  context.fillStyle = COLOURS.ground;
  context.fill('evenodd');
  for (const word of /** @type {('added' | 'changed')[]} */ (['added', 'changed'])) {
    context.beginPath();
    places[word].forEach((place) => addParcel(sheet, plan, place));
    context.fillStyle = word === 'added' ? COLOURS.addedGround : COLOURS.changedGround;
    context.fill('evenodd');
    context.fillStyle = patternOf(sheet, word);
    context.fill('evenodd');
  }
}

/**
 * A pattern of the ground, as in a drawing by cadview: lines on what was added, and dots on what changed.
 * @param {Sheet} sheet
 * @param {'added' | 'changed'} word
 * @returns {CanvasPattern}
 */
function patternOf({ ratio, context: target }, word) {
  const key = `${word} ${ratio}`;
  const known = patterns.get(key);
  if (known) {
    return known;
  }
  const canvas = document.createElement('canvas');
  canvas.width = canvas.height = Math.round(PATTERN * ratio);
  const context = /** @type {CanvasRenderingContext2D} */ (canvas.getContext('2d'));
  context.scale(canvas.width / PATTERN, canvas.width / PATTERN);
  context.fillStyle = context.strokeStyle = COLOURS[word];
  context.globalAlpha = 0.5;
  context.lineWidth = 0.8;
  for (const shift of word === 'added' ? [-PATTERN, 0, PATTERN] : []) {
    context.moveTo(shift - PATTERN, 2 * PATTERN);
    context.lineTo(shift + 2 * PATTERN, -PATTERN);
  }
  context.stroke();
  for (const middle of word === 'changed' ? [PATTERN / 4, (3 * PATTERN) / 4] : []) {
    context.beginPath();
    context.arc(middle, middle, 0.8, 0, 2 * Math.PI);
    context.fill();
  }
  const pattern = /** @type {CanvasPattern} */ (target.createPattern(canvas, 'repeat'));
  pattern.setTransform(new DOMMatrix().scale(PATTERN / canvas.width));
  patterns.set(key, pattern);
  return pattern;
}

// ---- Boundaries

/**
 * Draws strings: those of which a word is told over the others.
 * @param {Geometry} geometry
 * @param {Sheet} sheet
 * @param {(place: number) => Word | undefined} word
 */
function drawLines(geometry, sheet, word) {
  const { strings, points: { x, y } } = geometry;
  /** @type {Record<string, number[][]>} */
  const lines = { plain: [], removed: [], changed: [], added: [] };
  eachIn(geometry.trees.string, around(sheet, 6), (place) => {
    const [a, b] = [strings.first[place], strings.second[place]];
    lines[word(place) ?? 'plain'].push([x[a], y[a], x[b], y[b]]);
  });
  const width = Math.min(1.2, Math.max(0.25, sheet.spacing / 20));
  const wide = 2 * Math.max(0.4, width);
  strokeLines(sheet, lines.plain, { colour: COLOURS.line, width, dashes: [] });
  strokeLines(sheet, lines.removed, { colour: COLOURS.removed, width: wide, dashes: [3, 3] });
  const over = [...lines.changed, ...lines.added]; // No old line is seen beside them or between their dashes.
  strokeLines(sheet, over, { colour: COLOURS.ground, width: 1.7 * wide, dashes: [] });
  strokeLines(sheet, lines.changed, { colour: COLOURS.changed, width: wide, dashes: [10, 4, 2, 4] });
  strokeLines(sheet, lines.added, { colour: COLOURS.added, width: wide, dashes: [] });
}

/**
 * Draws lines.
 * @param {Sheet} sheet
 * @param {number[][]} lines  two positions each
 * @param {{colour: string, width: number, dashes: number[]}} style  lengths in pixels
 */
function strokeLines(sheet, lines, { colour, width, dashes }) {
  if (!lines.length) {
    return;
  }
  const { context } = sheet;
  context.beginPath();
  lines.forEach((it) => addLine(sheet, it));
  context.strokeStyle = colour;
  context.lineWidth = width;
  context.setLineDash(dashes);
  context.stroke();
  context.setLineDash([]);
}

// ---- Points

/**
 * Draws points as small rings, with their numbers where there is room, and what was added, changed or removed by a
 * sign. Where they are too close to be told apart, none is drawn.
 * @param {Plan} plan
 * @param {Sheet} sheet
 * @param {Since | null} since
 */
function drawPoints(plan, sheet, since) {
  /** @type {number[]} */
  const places = [];
  if (sheet.spacing >= POINTS_FROM) {
    eachIn(plan.trees.point, around(sheet, 90), (place) => places.push(place));
  }
  if (!places.length || places.length > (sheet.width * sheet.height) / POINT_ROOM) {
    return;
  }
  if (since) {
    eachIn(since.trees.point, around(sheet, 10), (place) => drawWhereItWas(plan, since, sheet, place));
  }
  for (const place of places) {
    const at = { x: across(sheet, plan.points.x[place]), y: down(sheet, plan.points.y[place]) };
    drawPoint(sheet, at, since ? wordOf(plan, 'point', place) : undefined);
    if (sheet.spacing >= POINT_NUMBERS_FROM) {
      sheet.context.textAlign = 'left';
      const beside = { x: at.x + 6, y: at.y - 7 };
      drawText(sheet.context, String(plan.points.number[place]), beside, FONTS.point, COLOURS.label);
    }
  }
}

/**
 * Draws a point: a ring, or where it was added a dot, and where it changed a diamond.
 * @param {Sheet} sheet
 * @param {Position} at  in pixels
 * @param {Word | undefined} word
 */
function drawPoint({ context, spacing }, { x, y }, word) {
  const radius = spacing < 70 ? 2.2 : 3;
  context.fillStyle = word ? COLOURS[word] : '#fff';
  context.strokeStyle = word ? COLOURS[word] : COLOURS.line;
  context.lineWidth = 1.1;
  context.beginPath();
  if (word === 'changed') {
    addDiamond(context, x, y, radius + 2);
  } else {
    context.arc(x, y, word ? radius + 1 : radius, 0, 2 * Math.PI);
  }
  context.fill();
  context.stroke();
}

/**
 * Adds a diamond to the path.
 * @param {CanvasRenderingContext2D} context
 * @param {number} x
 * @param {number} y
 * @param {number} radius
 */
function addDiamond(context, x, y, radius) {
  context.moveTo(x, y - radius);
  context.lineTo(x + radius, y);
  context.lineTo(x, y + radius);
  context.lineTo(x - radius, y);
  context.closePath();
}

/**
 * A cross where a point was that was moved or removed.
 * @param {Plan} plan
 * @param {Since} since
 * @param {Sheet} sheet
 * @param {number} place
 */
function drawWhereItWas(plan, since, sheet, place) {
  const { x: xs, y: ys, number } = since.points;
  const now = placeOf(plan, 'point', number[place]);
  if (now !== undefined && plan.points.x[now] === xs[place] && plan.points.y[now] === ys[place]) {
    return;
  }
  const { context } = sheet;
  const [x, y] = [across(sheet, xs[place]), down(sheet, ys[place])];
  context.strokeStyle = COLOURS.removed;
  context.lineWidth = 2;
  context.beginPath();
  context.moveTo(x - 4, y - 4);
  context.lineTo(x + 4, y + 4);
  context.moveTo(x - 4, y + 4);
  context.lineTo(x + 4, y - 4);
  context.stroke();
}

// ---- Labels

/** @typedef {{text: string, font: string, colour: string}} Line  Of a label. */

/**
 * Draws a label in each parcel that has room for one.
 * @param {Plan} plan
 * @param {Sheet} sheet
 * @param {boolean} areChangesShown
 */
function drawLabels(plan, sheet, areChangesShown) {
  const key = `${sheet.scale} ${areChangesShown}`;
  if (labels.key !== key) {
    labels.key = key;
    labels.of.clear();
  }
  eachIn(plan.trees.parcel, sheet.box, (place) => {
    let label = labels.of.get(place);
    if (label === undefined) {
      label = labelOf(plan, sheet, place, areChangesShown ? wordOf(plan, 'parcel', place) : undefined);
      labels.of.set(place, label);
    }
    if (label) {
      drawLabel(sheet, label.lines, label.at);
    }
  });
}

/**
 * The longest label for which a parcel has room, and its middle; or null.
 * @param {Plan} plan
 * @param {Sheet} sheet
 * @param {number} place
 * @param {Word | undefined} word  what became of it
 * @returns {Label | null}
 */
function labelOf(plan, { context, scale }, place, word) {
  const box = boxOf(plan, 'parcel', place);
  const [width, height] = [(box.east - box.west) * scale, (box.north - box.south) * scale];
  if (width < 10 || height < LINE_HEIGHT) {
    return null;
  }
  for (const lines of labelsOf(plan, place, word)) {
    const wide = Math.max(...lines.map(({ text, font }) => widthOf(context, text, font))) + 6;
    const tall = lines.length * LINE_HEIGHT;
    const at = wide < width && tall < height
      ? roomIn(plan, place, box, { x: wide / scale, y: (tall + 2) / scale }) : undefined;
    if (at) {
      return { lines, at };
    }
  }
  return null;
}

/**
 * The labels of a parcel from the longest on: number, label and area; the first two; the number; the same in small.
 * @param {Plan} plan
 * @param {number} place
 * @param {Word | undefined} word  what became of it
 * @returns {Line[][]}
 */
function labelsOf({ parcels }, place, word) {
  const [number, colour] = [String(parcels.number[place]), word ? COLOURS[word] : COLOURS.number];
  const lines = [
    { text: word ? `${number} ${word}` : number, font: FONTS.number, colour },
    { text: visible(parcels.label[place]), font: FONTS.label, colour: COLOURS.label },
    { text: `${parcels.area[place]} m²`, font: FONTS.label, colour: COLOURS.label }];
  return [lines, lines.slice(0, 2), lines.slice(0, 1), [{ text: number, font: FONTS.number, colour }],
    [{ text: number, font: FONTS.small, colour }]];
}

/**
 * The middle of a place in a parcel that has room for a box of this size, or undefined where none is found.
 * @param {Geometry} geometry
 * @param {number} place
 * @param {Box} box  the parcel's
 * @param {Position} size
 * @returns {Position | undefined}
 */
function roomIn(geometry, place, box, size) {
  for (const height of HEIGHTS) {
    const y = box.south + height * (box.north - box.south);
    let [west, east] = [-Infinity, Infinity];
    for (const level of [y, y - size.y / 2, y + size.y / 2]) {
      const [from, to] = widestStretch(crossings(geometry, place, level));
      [west, east] = [Math.max(west, from), Math.min(east, to)];
    }
    if (east - west >= size.x) {
      return { x: (west + east) / 2, y };
    }
  }
  return undefined;
}

/**
 * The longest stretch of ground between crossings.
 * @param {number[]} found
 * @returns {number[]}  from west to east
 */
function widestStretch(found) {
  let widest = [0, -1];
  for (let it = 0; it + 1 < found.length; it += 2) {
    if (found[it + 1] - found[it] > widest[1] - widest[0]) {
      widest = [found[it], found[it + 1]];
    }
  }
  return widest;
}

/**
 * How wide a text is.
 * @param {CanvasRenderingContext2D} context
 * @param {string} text
 * @param {string} font
 * @returns {number}  pixels
 */
function widthOf(context, text, font) {
  const key = font + text;
  let width = widths.get(key);
  if (width === undefined) {
    context.font = font;
    width = context.measureText(text).width;
    widths.set(key, width);
  }
  return width;
}

/**
 * Draws the lines of a label around a position.
 * @param {Sheet} sheet
 * @param {Line[]} lines
 * @param {Position} at
 */
function drawLabel(sheet, lines, at) {
  const [x, y] = [across(sheet, at.x), down(sheet, at.y)];
  sheet.context.textAlign = 'center';
  lines.forEach(({ text, font, colour }, it) =>
    drawText(sheet.context, text, { x, y: y + (it - (lines.length - 1) / 2) * LINE_HEIGHT }, font, colour));
}

/**
 * Draws a text with a light edge, so that it can be read over lines.
 * @param {CanvasRenderingContext2D} context
 * @param {string} text
 * @param {Position} at  in pixels
 * @param {string} font
 * @param {string} colour
 */
function drawText(context, text, { x, y }, font, colour) {
  context.font = font;
  context.textBaseline = 'middle';
  context.lineWidth = 3;
  context.strokeStyle = 'rgba(255, 253, 246, 0.85)';
  context.strokeText(text, x, y);
  context.fillStyle = colour;
  context.fillText(text, x, y);
}

// ---- What is chosen

/**
 * Draws what is chosen over the map: a row, or all rows that have a source.
 * @param {Plan} plan
 * @param {Sheet} sheet
 * @param {Item | null} item
 */
function drawChosen(plan, sheet, item) {
  const source = item?.kind === 'source' ? placeOf(plan, 'source', item.number) : undefined;
  if (source !== undefined) {
    const lists = plan.lists.map((list) => list.includes(source));
    for (const kind of ROW_KINDS) {
      /** @type {number[]} */
      const places = [];
      const { sources } = rowsOf(plan, kind);
      eachIn(plan.trees[kind], around(sheet, 16), (place) => lists[sources[place]] && places.push(place));
      markRows(plan, sheet, kind, kind === 'point' && sheet.spacing < POINTS_FROM ? [] : places);
    }
  }
  const drawn = item ? drawnOf(plan, item) : undefined;
  if (item && drawn) {
    markRows(drawn.geometry, sheet, item.kind, [drawn.place]);
  }
}

/**
 * Draws a wide line, which lets what is under it be seen, along rows of a kind.
 * @param {Geometry} geometry
 * @param {Sheet} sheet
 * @param {Kind} kind
 * @param {number[]} places
 */
function markRows(geometry, sheet, kind, places) {
  const { context, ratio } = sheet;
  const { points: { x, y }, strings: { first, second } } = geometry;
  context.setTransform(ratio, 0, 0, ratio, 0, 0);
  context.lineJoin = context.lineCap = 'round';
  context.beginPath();
  for (const place of places) {
    if (kind === 'parcel') {
      addParcel(sheet, geometry, place);
    } else if (kind === 'string') {
      addLine(sheet, [x[first[place]], y[first[place]], x[second[place]], y[second[place]]]);
    } else {
      const [middleX, middleY] = [across(sheet, x[place]), down(sheet, y[place])];
      context.moveTo(middleX + 9, middleY);
      context.arc(middleX, middleY, 9, 0, 2 * Math.PI);
    }
  }
  context.globalAlpha = 0.1;
  context.fillStyle = context.strokeStyle = COLOURS.selected;
  if (kind === 'parcel') {
    context.fill('evenodd');
  }
  context.globalAlpha = 0.45;
  context.lineWidth = Math.min(kind === 'point' ? 5 : 8, Math.max(2, sheet.spacing / 5));
  context.stroke();
  context.globalAlpha = 1;
}
