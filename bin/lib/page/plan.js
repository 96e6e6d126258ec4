/*
 * The plan of a page: its rows as columns of numbers, trees of boxes to find them by place, and what is where.
 *
 * Positions are millimetres from the plan's origin, x to the east and y to the north, exact as doubles. Rows are named
 * by their places in their columns; a parcel's place is -1 for the outside.
 */

/** @typedef {{west: number, south: number, east: number, north: number}} Box  In millimetres. */
/** @typedef {{x: number, y: number}} Position  In millimetres. */
/** @typedef {'parcel' | 'string' | 'point' | 'source'} Kind */
/** @typedef {'added' | 'removed' | 'changed'} Word */
/** @typedef {{kind: Kind, number: number, word: Word, was: string, now: string}} Change */
/** @typedef {{kind: Kind, number: number}} Item  A row of the plan, or else one that the older plan alone had. */
/** @typedef {{number: Int32Array, sources: Int32Array, x: Float64Array, y: Float64Array}} Points */
/**
 * @typedef {object} Strings
 * @property {Int32Array} number
 * @property {Int32Array} sources  places of lists of sources
 * @property {Int32Array} first  places of points
 * @property {Int32Array} second
 * @property {Int32Array} left  places of parcels
 * @property {Int32Array} right
 */
/**
 * @typedef {object} Parcels
 * @property {Int32Array} number
 * @property {string[]} label
 * @property {string[]} area  square metres, as the program tells them
 * @property {Int32Array} sources  places of lists of sources
 * @property {Int32Array} ringsFrom  the first ring of each parcel, and at the end how many rings there are
 * @property {Int32Array} cornersFrom  the first corner of each ring, and at the end how many corners there are
 * @property {Int32Array} corners  places of points
 */
/**
 * @typedef {object} Tree
 * @property {Int32Array} rows  the rows, near ones together
 * @property {Float64Array[]} levels  boxes, four numbers each: those of the rows, of each BRANCHES of them, and so on
 */
/**
 * @typedef {object} Geometry
 * @property {Points} points
 * @property {Strings} strings
 * @property {Parcels} parcels
 * @property {Float64Array} ringBoxes  the boxes of the rings, four numbers each
 * @property {Record<string, Tree>} trees  by kind
 */
/**
 * @typedef {object} More
 * @property {string} title
 * @property {number[]} origin  x and y, in millimetres
 * @property {{number: Int32Array, text: string[]}} sources
 * @property {number[][]} lists  lists of places of sources
 * @property {Set<number>} retired
 * @property {Since | null} since
 * @property {Record<string, Map<number, number>>} places  by kind the place of each number
 */
/** @typedef {Geometry & More} Plan */
/**
 * @typedef {object} Older
 * @property {string} name
 * @property {Change[]} changes
 * @property {Record<string, Map<number, Change>>} of  by kind the change of each number
 * @property {Set<number>} moved  the strings that aren't where they were
 */
/** @typedef {Geometry & Older} Since  What the older plan had that is drawn, and what changed. */

const ROW_KINDS = /** @type {('parcel' | 'string' | 'point')[]} */ (['parcel', 'string', 'point']); // With a place.
const BRANCHES = 16;
const CODES = 65535; // The cells of a side of the square in which near rows are put together.

// ---- Reading

/**
 * The numbers of which these are the steps.
 * @template {Int32Array | Float64Array} T
 * @param {number[]} steps
 * @param {T} into
 * @returns {T}
 */
function summed(steps, into) {
  let sum = 0;
  for (let place = 0; place < steps.length; place++) {
    sum += steps[place];
    into[place] = sum;
  }
  return into;
}

/**
 * @param {number[]} steps
 * @returns {Int32Array}
 */
function whole(steps) {
  return summed(steps, new Int32Array(steps.length));
}

/**
 * Where each of some runs begins, and where the last one ends.
 * @param {number[]} sizes
 * @returns {Int32Array}
 */
function begins(sizes) {
  return summed(sizes, new Int32Array(sizes.length + 1)).copyWithin(1, 0, sizes.length).fill(0, 0, 1);
}

/**
 * The columns of points, strings and parcels.
 * @param {any} told
 * @returns {Geometry}
 */
function geometryOf(told) {
  const { points, strings, parcels } = told;
  const columns = (/** @type {any} */ rows, /** @type {string[]} */ names) =>
    Object.fromEntries(names.map((name) => [name, whole(rows[name])]));
  const count = points.number.length;
  /** @type {any} */
  const geometry = {
    points: {
      ...columns(points, ['number', 'sources']),
      x: summed(points.x, new Float64Array(count)),
      y: summed(points.y, new Float64Array(count)),
    },
    strings: columns(strings, ['number', 'sources', 'first', 'second', 'left', 'right']),
    parcels: {
      ...columns(parcels, ['number', 'sources', 'corners']),
      label: parcels.label,
      area: parcels.area,
      ringsFrom: begins(parcels.rings),
      cornersFrom: begins(parcels.sizes),
    },
  };
  geometry.ringBoxes = ringBoxesOf(geometry);
  geometry.trees = treesOf(geometry);
  return geometry;
}

/**
 * The older plan's rows that are drawn, and the changes by kind and number.
 * @param {any} told
 * @returns {Since}
 */
function sinceOf(told) {
  /** @type {Change[]} */
  const changes = told.changes.map((/** @type {any[]} */ it) =>
    ({ kind: it[0], number: it[1], word: it[2], was: it[3], now: it[4] }));
  /** @type {Record<string, Map<number, Change>>} */
  const of = { parcel: new Map(), string: new Map(), point: new Map(), source: new Map() };
  for (const change of changes) {
    of[change.kind].set(change.number, change);
  }
  const geometry = geometryOf(told);
  return { name: told.name, changes, of, moved: new Set(geometry.strings.number), ...geometry };
}

/**
 * The plan that the page holds.
 * @param {any} told
 * @returns {Plan}
 */
function planOf(told) {
  return {
    title: told.title,
    origin: told.origin,
    sources: { number: whole(told.sources.number), text: told.sources.text },
    lists: told.lists,
    retired: new Set(told.retired),
    since: told.since ? sinceOf(told.since) : null,
    places: {},
    ...geometryOf(told),
  };
}

/**
 * The rows of a kind.
 * @param {Geometry} geometry
 * @param {'parcel' | 'string' | 'point'} kind
 * @returns {Parcels | Strings | Points}
 */
function rowsOf({ parcels, strings, points }, kind) {
  return { parcel: parcels, string: strings, point: points }[kind];
}

/**
 * The numbers of the rows of a kind.
 * @param {Plan} plan
 * @param {Kind} kind
 * @returns {Int32Array}
 */
function numbersOf(plan, kind) {
  return kind === 'source' ? plan.sources.number : rowsOf(plan, kind).number;
}

/**
 * The place of the row with this number, or undefined.
 * @param {Plan} plan
 * @param {Kind} kind
 * @param {number} number
 * @returns {number | undefined}
 */
function placeOf(plan, kind, number) {
  if (!plan.places[kind]) {
    plan.places[kind] = new Map();
    numbersOf(plan, kind).forEach((it, place) => plan.places[kind].set(it, place));
  }
  return plan.places[kind].get(number);
}

// ---- Boxes

/**
 * A box that holds nothing yet.
 * @returns {Box}
 */
function noBox() {
  return { west: Infinity, south: Infinity, east: -Infinity, north: -Infinity };
}

/**
 * Makes a box hold a position too.
 * @param {Box} box
 * @param {number} x
 * @param {number} y
 */
function stretch(box, x, y) {
  box.west = Math.min(box.west, x);
  box.east = Math.max(box.east, x);
  box.south = Math.min(box.south, y);
  box.north = Math.max(box.north, y);
}

/**
 * The box, larger on each side.
 * @param {Box} box
 * @param {number} by  millimetres
 * @returns {Box}
 */
function widened(box, by) {
  return { west: box.west - by, south: box.south - by, east: box.east + by, north: box.north + by };
}

/**
 * The boxes of all rings.
 * @param {Geometry} geometry
 * @returns {Float64Array}
 */
function ringBoxesOf({ points: { x, y }, parcels: { cornersFrom, corners } }) {
  const boxes = new Float64Array(4 * (cornersFrom.length - 1));
  for (let ring = 0; ring + 1 < cornersFrom.length; ring++) {
    const box = noBox();
    for (let it = cornersFrom[ring]; it < cornersFrom[ring + 1]; it++) {
      stretch(box, x[corners[it]], y[corners[it]]);
    }
    putBox(boxes, ring, box);
  }
  return boxes;
}

/**
 * Whether a box among others meets a box.
 * @param {Float64Array} boxes  four numbers each
 * @param {number} place
 * @param {Box} box
 * @returns {boolean}
 */
function meets(boxes, place, box) {
  const at = 4 * place;
  return boxes[at] <= box.east && boxes[at + 2] >= box.west && boxes[at + 1] <= box.north && boxes[at + 3] >= box.south;
}

/**
 * The box of a row that has a place on the map.
 * @param {Geometry} geometry
 * @param {Kind} kind
 * @param {number} place
 * @returns {Box}
 */
function boxOf({ points, strings, parcels, ringBoxes }, kind, place) {
  const box = noBox();
  const add = (/** @type {number} */ point) => stretch(box, points.x[point], points.y[point]);
  if (kind === 'point') {
    add(place);
  } else if (kind === 'string') {
    add(strings.first[place]);
    add(strings.second[place]);
  } else {
    for (let it = 4 * parcels.ringsFrom[place]; it < 4 * parcels.ringsFrom[place + 1]; it += 2) {
      stretch(box, ringBoxes[it], ringBoxes[it + 1]);
    }
  }
  return box;
}

/**
 * The box of all points; of a plan without points a square of 10 m.
 * @param {Points[]} all
 * @returns {Box}
 */
function boxOfAll(all) {
  const box = noBox();
  for (const points of all) {
    points.x.forEach((x, place) => stretch(box, x, points.y[place]));
  }
  return box.west <= box.east ? box : { west: 0, south: 0, east: 10000, north: 10000 };
}

// ---- Trees of boxes

/**
 * A tree for each kind of rows.
 * @param {Geometry} geometry
 * @returns {Record<string, Tree>}
 */
function treesOf(geometry) {
  /** @type {Record<string, Tree>} */
  const trees = {};
  for (const kind of ROW_KINDS) {
    const count = rowsOf(geometry, kind).number.length;
    const boxes = new Float64Array(4 * count);
    for (let place = 0; place < count; place++) {
      putBox(boxes, place, boxOf(geometry, kind, place));
    }
    trees[kind] = treeOf(boxes);
  }
  return trees;
}

/**
 * Writes a box at its place.
 * @param {Float64Array} boxes  four numbers each
 * @param {number} place
 * @param {Box} box
 */
function putBox(boxes, place, box) {
  boxes[4 * place] = box.west;
  boxes[4 * place + 1] = box.south;
  boxes[4 * place + 2] = box.east;
  boxes[4 * place + 3] = box.north;
}

/**
 * A tree of boxes.
 * @param {Float64Array} boxes  four numbers each
 * @returns {Tree}
 */
function treeOf(boxes) {
  const rows = nearTogether(boxes);
  const levels = [boxes.map((_, it) => boxes[4 * rows[it >> 2] + (it & 3)])];
  while (levels[levels.length - 1].length > 4 * BRANCHES) {
    levels.push(boxesAround(levels[levels.length - 1]));
  }
  return { rows, levels };
}

/**
 * The box of each BRANCHES boxes.
 * @param {Float64Array} boxes
 * @returns {Float64Array}
 */
function boxesAround(boxes) {
  const count = boxes.length / 4;
  const around = new Float64Array(4 * Math.ceil(count / BRANCHES));
  for (let place = 0; place < around.length / 4; place++) {
    const box = noBox();
    for (let it = place * BRANCHES; it < Math.min(count, (place + 1) * BRANCHES); it++) {
      stretch(box, boxes[4 * it], boxes[4 * it + 1]);
      stretch(box, boxes[4 * it + 2], boxes[4 * it + 3]);
    }
    putBox(around, place, box);
  }
  return around;
}

/**
 * The places of boxes in an order in which near ones are mostly near: by the bits of their middles in turn (Morton).
 * @param {Float64Array} boxes
 * @returns {Int32Array}
 */
function nearTogether(boxes) {
  const count = boxes.length / 4;
  const all = noBox();
  for (let it = 0; it < boxes.length; it += 2) {
    stretch(all, boxes[it], boxes[it + 1]);
  }
  const scale = CODES / Math.max(1, all.east - all.west, all.north - all.south);
  const keys = new Float64Array(count); // The code and then the place: 32 bits and 20.
  for (let place = 0; place < count; place++) {
    const x = ((boxes[4 * place] + boxes[4 * place + 2]) / 2 - all.west) * scale;
    const y = ((boxes[4 * place + 1] + boxes[4 * place + 3]) / 2 - all.south) * scale;
    keys[place] = ((spread(x) | (spread(y) << 1)) >>> 0) * 1048576 + place;
  }
  keys.sort();
  return new Int32Array(count).map((_, place) => keys[place] % 1048576);
}

/**
 * The sixteen bits of a number, each with a 0 before it.
 * @param {number} value
 * @returns {number}
 */
function spread(value) {
  let bits = value & 0xffff;
  bits = (bits | (bits << 8)) & 0x00ff00ff;
  bits = (bits | (bits << 4)) & 0x0f0f0f0f;
  bits = (bits | (bits << 2)) & 0x33333333;
  return (bits | (bits << 1)) & 0x55555555;
}

/**
 * Calls `take` with each row whose box meets a box.
 * @param {Tree} tree
 * @param {Box} box
 * @param {(row: number) => void} take
 */
function eachIn(tree, box, take) {
  const { rows, levels } = tree;
  const visit = (/** @type {number} */ level, /** @type {number} */ begin) => {
    const boxes = levels[level];
    const end = Math.min(boxes.length / 4, begin + BRANCHES);
    for (let it = begin; it < end; it++) {
      if (meets(boxes, it, box)) {
        level ? visit(level - 1, it * BRANCHES) : take(rows[it]);
      }
    }
  };
  visit(levels.length - 1, 0);
}

// ---- What is where

/**
 * Calls `take` with the two ends of each side of a parcel.
 * @param {Geometry} geometry
 * @param {number} place
 * @param {(x1: number, y1: number, x2: number, y2: number) => void} take
 */
function eachSide(geometry, place, take) {
  const { points: { x, y }, parcels: { ringsFrom, cornersFrom, corners } } = geometry;
  for (let ring = ringsFrom[place]; ring < ringsFrom[place + 1]; ring++) {
    let last = corners[cornersFrom[ring + 1] - 1];
    for (let it = cornersFrom[ring]; it < cornersFrom[ring + 1]; it++) {
      const next = corners[it];
      take(x[last], y[last], x[next], y[next]);
      last = next;
    }
  }
}

/**
 * Where the level line at height y crosses a parcel's sides, from west to east.
 * @param {Geometry} geometry
 * @param {number} place
 * @param {number} y
 * @returns {number[]}
 */
function crossings(geometry, place, y) {
  /** @type {number[]} */
  const found = [];
  eachSide(geometry, place, (x1, y1, x2, y2) => {
    if (y1 > y !== y2 > y) {
      found.push(x1 + ((x2 - x1) * (y - y1)) / (y2 - y1));
    }
  });
  return found.sort((a, b) => a - b);
}

/**
 * The parcel whose ground, by even and odd of its rings, has this position; undefined outside of all.
 * @param {Geometry} geometry
 * @param {Position} at
 * @returns {number | undefined}
 */
function parcelAt(geometry, at) {
  /** @type {number | undefined} */
  let found;
  eachIn(geometry.trees.parcel, { west: at.x, south: at.y, east: at.x, north: at.y }, (place) => {
    if (crossings(geometry, place, at.y).filter((x) => x < at.x).length % 2) {
      found = place;
    }
  });
  return found;
}

/**
 * How far a position is from a string.
 * @param {Geometry} geometry
 * @param {number} place
 * @param {Position} at
 * @returns {number}  millimetres
 */
function distanceTo({ points, strings }, place, at) {
  const [a, b] = [strings.first[place], strings.second[place]];
  const [dx, dy] = [points.x[b] - points.x[a], points.y[b] - points.y[a]];
  const along = ((at.x - points.x[a]) * dx + (at.y - points.y[a]) * dy) / (dx * dx + dy * dy);
  const part = Math.min(1, Math.max(0, along));
  return Math.hypot(at.x - points.x[a] - part * dx, at.y - points.y[a] - part * dy);
}

/**
 * The nearest point or string within a distance, or undefined.
 * @param {Geometry} geometry
 * @param {'point' | 'string'} kind
 * @param {Position} at
 * @param {number} reach  millimetres
 * @returns {number | undefined}
 */
function nearest(geometry, kind, at, reach) {
  const { points } = geometry;
  /** @type {number | undefined} */
  let found;
  let least = reach;
  eachIn(geometry.trees[kind], widened({ west: at.x, south: at.y, east: at.x, north: at.y }, reach), (place) => {
    const far = kind === 'point'
      ? Math.hypot(points.x[place] - at.x, points.y[place] - at.y)
      : distanceTo(geometry, place, at);
    if (far <= least) {
      least = far;
      found = place;
    }
  });
  return found;
}

/**
 * The length that the middle one of all strings has, which tells how closely a map is drawn.
 * @param {Geometry} geometry
 * @returns {number}  millimetres
 */
function middleLength({ points: { x, y }, strings: { first, second } }) {
  const lengths = Float64Array.from(second, (b, place) => Math.hypot(x[b] - x[first[place]], y[b] - y[first[place]]));
  return lengths.sort()[lengths.length >> 1] || 10000;
}

// ---- What became of rows

/**
 * What became of a row since the older plan: `changed` too of a string whose ends moved. Undefined where nothing did.
 * @param {Plan} plan
 * @param {Kind} kind
 * @param {number} place
 * @returns {Word | undefined}
 */
function wordOf(plan, kind, place) {
  const number = numbersOf(plan, kind)[place];
  const word = plan.since?.of[kind].get(number)?.word;
  return word ?? (kind === 'string' && plan.since?.moved.has(number) ? 'changed' : undefined);
}

/**
 * Where a row is drawn: the plan, or else what is left of the older one, and the row's place there. Undefined where
 * the row has no place on the map.
 * @param {Plan} plan
 * @param {Item} item
 * @returns {{geometry: Geometry, place: number} | undefined}
 */
function drawnOf(plan, { kind, number }) {
  if (kind === 'source') {
    return undefined;
  }
  const place = placeOf(plan, kind, number);
  if (place !== undefined) {
    return { geometry: plan, place };
  }
  const old = plan.since ? rowsOf(plan.since, kind).number.indexOf(number) : -1;
  return plan.since && old >= 0 ? { geometry: plan.since, place: old } : undefined;
}

/**
 * A whole number of millimetres as metres with three decimals, exactly.
 * @param {number} millimetres
 * @returns {string}
 */
function metres(millimetres) {
  const digits = String(Math.abs(millimetres)).padStart(4, '0');
  return `${millimetres < 0 ? '-' : ''}${digits.slice(0, -3)}.${digits.slice(-3)}`;
}
