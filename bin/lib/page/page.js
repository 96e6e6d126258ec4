/* The page itself: the map with its tiles, what is chosen, the search, the lists, and printing. */

const TILE = 256; // Pixels.
const MOST_TIME = 12; // Milliseconds of a frame in which tiles are drawn.
const CLOSEST = 2; // Pixels a millimetre.
const MARGIN = { left: 28, right: 72, top: 30, bottom: 64 }; // Pixels around the whole map, for buttons and scale bar.
const PAPER = { x: 680, y: 624 }; // The map's pixels on a sheet of paper, 96 an inch: 179.9 mm by 165.1 mm.
const PAPER_SCALE = 96 / 25.4; // Pixels a millimetre of paper.
const PAPER_RATIO = 4; // Pixels of the canvas for each on paper. Chromium prints it true only where it is a power of 2.

/** @type {Layers} */
const layers = { parcels: true, strings: true, points: true, changes: true };
const plan = planOf(JSON.parse(byId('data').textContent ?? ''));
const middle = middleLength(plan);
const extent = boxOfAll(plan.since ? [plan.points, plan.since.points] : [plan.points]);
const isCalm = matchMedia('(prefers-reduced-motion: reduce)').matches;
const pixelsAt0 = wholeScale();
const map = makeMap();
/** @type {Map<HTMLCanvasElement, {coords: any, done: Function | null, draw: (sheet: Sheet) => void}>} */
const tiles = new Map();
/** @type {Set<HTMLCanvasElement>} */
const waiting = new Set();
/** @type {Item | null} */
let chosen = null;

/**
 * @param {string} id
 * @returns {HTMLElement}
 */
function byId(id) {
  return /** @type {HTMLElement} */ (document.getElementById(id));
}

// ---- The map

/**
 * The pixels a millimetre at which the whole map has room: zoom 0, and each zoom after it doubles them.
 * @returns {number}
 */
function wholeScale() {
  const { clientWidth, clientHeight } = byId('map');
  const [wide, high] = [clientWidth - MARGIN.left - MARGIN.right, clientHeight - MARGIN.top - MARGIN.bottom];
  const across = Math.max(80, wide) / Math.max(1000, extent.east - extent.west);
  const up = Math.max(80, high) / Math.max(1000, extent.north - extent.south);
  return Math.min(CLOSEST, across, up);
}

/** Shows the whole map: its middle is that of the room between the margins. */
function showWhole() {
  const zoom = Math.max(map.getMinZoom(), Math.floor(Math.log2(wholeScale() / pixelsAt0) + 1e-6));
  const [x, y] = [(extent.west + extent.east) / 2, (extent.south + extent.north) / 2];
  const [right, low] = [(MARGIN.right - MARGIN.left) / 2, (MARGIN.bottom - MARGIN.top) / 2];
  map.setView([y - low / scaleAt(zoom), x + right / scaleAt(zoom)], zoom, { animate: !isCalm });
}

/**
 * The map, in millimetres from the plan's origin.
 */
function makeMap() {
  const crs = { ...L.CRS.Simple, transformation: L.transformation(pixelsAt0, 0, -pixelsAt0, 0) };
  return L.map('map', {
    crs, attributionControl: false, zoomControl: false,
    fadeAnimation: false, zoomAnimation: !isCalm, inertia: !isCalm,
    minZoom: -2, maxZoom: Math.ceil(Math.log2(CLOSEST / pixelsAt0)),
    maxBounds: latLngs(extent).pad(1.5), maxBoundsViscosity: 0.8,
  });
}

/**
 * A box as Leaflet has it: latitude is y, longitude x.
 * @param {Box} box
 */
function latLngs({ west, south, east, north }) {
  return L.latLngBounds([south, west], [north, east]);
}

/**
 * Pixels a millimetre at a zoom.
 * @param {number} zoom
 * @returns {number}
 */
function scaleAt(zoom) {
  return pixelsAt0 * 2 ** zoom;
}

/**
 * A sheet of this size, to draw on.
 * @param {HTMLCanvasElement} canvas
 * @param {Position} corner  its north-west
 * @param {number} scale  pixels a millimetre
 * @param {Position} size  pixels of the page
 * @param {number} ratio  pixels of the canvas for each of the page
 * @returns {Sheet}
 */
function sheetOf(canvas, corner, scale, size, ratio) {
  canvas.width = Math.round(size.x * ratio);
  canvas.height = Math.round(size.y * ratio);
  return {
    context: /** @type {CanvasRenderingContext2D} */ (canvas.getContext('2d')), scale, ratio,
    box: { west: corner.x, north: corner.y, east: corner.x + size.x / scale, south: corner.y - size.y / scale },
    width: size.x, height: size.y, spacing: middle * scale,
    isFar: Math.max(extent.east - extent.west, extent.north - extent.south) * scale > FAR,
  };
}

const Tiles = L.GridLayer.extend({
  /**
   * A tile, which is drawn soon.
   * @param {any} coords
   * @param {Function} done
   * @returns {HTMLCanvasElement}
   */
  createTile(coords, done) {
    const canvas = document.createElement('canvas');
    tiles.set(canvas, { coords, done, draw: this.options.draw });
    drawSoon(canvas);
    return canvas;
  },
});
const mapTiles = tilesOf((sheet) => drawMap(plan, sheet, layers), 1);
const chosenTiles = tilesOf((sheet) => drawChosen(plan, sheet, chosen), 2);

/**
 * A layer of tiles.
 * @param {(sheet: Sheet) => void} draw  draws one
 * @param {number} zIndex
 */
function tilesOf(draw, zIndex) {
  const layer = new Tiles({
    draw, zIndex, tileSize: TILE, minZoom: -30, maxZoom: 60, keepBuffer: 1, updateWhenIdle: false,
    updateWhenZooming: false,
  });
  layer.on('tileunload', (/** @type {any} */ event) => {
    tiles.delete(event.tile);
    waiting.delete(event.tile);
  });
  return layer;
}

/**
 * Has a tile drawn in one of the next frames.
 * @param {HTMLCanvasElement} canvas
 */
function drawSoon(canvas) {
  if (!waiting.size) {
    requestAnimationFrame(drawWaiting);
  }
  waiting.add(canvas);
}

/** Draws waiting tiles for a part of a frame. */
function drawWaiting() {
  const end = performance.now() + MOST_TIME;
  for (const canvas of waiting) {
    waiting.delete(canvas);
    drawTile(canvas);
    if (performance.now() > end) {
      break;
    }
  }
  if (waiting.size) {
    requestAnimationFrame(drawWaiting);
  } else if (!performance.getEntriesByName('drawn').length) {
    performance.mark('drawn');
  }
}

/**
 * Draws a tile, if the map still has it.
 * @param {HTMLCanvasElement} canvas
 */
function drawTile(canvas) {
  const tile = tiles.get(canvas);
  if (!tile) {
    return;
  }
  const { coords, done, draw } = tile;
  const scale = scaleAt(coords.z);
  const corner = { x: (coords.x * TILE) / scale, y: (-coords.y * TILE) / scale };
  draw(sheetOf(canvas, corner, scale, { x: TILE, y: TILE }, window.devicePixelRatio || 1));
  if (done) {
    tile.done = null;
    done(null, canvas);
  }
}

/** Draws all tiles again. */
function drawAgain() {
  [...tiles.keys()].forEach(drawSoon);
}

// ---- What is chosen

/**
 * Chooses what lies at a position: a point or a boundary that is very near, else the parcel.
 * @param {Position} at
 */
function chooseAt(at) {
  const pixel = 1 / scaleAt(map.getZoom());
  const areNearOnesMeant = middle / pixel >= POINTS_FROM;
  const point = areNearOnesMeant && layers.points ? nearest(plan, 'point', at, 7 * pixel) : undefined;
  const string = areNearOnesMeant && layers.strings ? nearest(plan, 'string', at, 3.5 * pixel) : undefined;
  const parcel = layers.parcels ? parcelAt(plan, at) : undefined;
  if (point !== undefined) {
    choose({ kind: 'point', number: plan.points.number[point] });
  } else if (string !== undefined) {
    choose({ kind: 'string', number: plan.strings.number[string] });
  } else {
    choose(parcel === undefined ? null : { kind: 'parcel', number: plan.parcels.number[parcel] });
  }
}

/**
 * Chooses a row, or none: the panel tells of it, and the map shows where it is. A focus in the panel stays there, or
 * goes to the map.
 * @param {Item | null} item
 */
function choose(item) {
  chosen = item;
  const hasFocus = byId('panel').contains(document.activeElement);
  byId('panel').hidden = !item;
  chosenTiles.remove();
  if (item) {
    chosenTiles.addTo(map);
  }
  byId('chosen').textContent = item ? summaryOf(item) : '';
  history.replaceState(null, '', item ? `#${item.kind}-${item.number}` : location.pathname + location.search);
  if (item) {
    byId('panel-title').textContent = nameOf(item);
    byId('details').replaceChildren(...detailsOf(plan, item));
    byId('panel').scrollIntoView();
  }
  if (hasFocus) {
    byId(item ? 'panel-title' : 'map').focus({ preventScroll: true });
  }
}

/**
 * What is read out of a row that was chosen.
 * @param {Item} item
 * @returns {string}
 */
function summaryOf(item) {
  const place = placeOf(plan, item.kind, item.number);
  const more = item.kind === 'parcel' && place !== undefined
    ? `, ${visible(plan.parcels.label[place])}, ${plan.parcels.area[place]} square metres` : '';
  return `${nameOf(item)}${more}`;
}

/**
 * The box of a row on the map; of a source that of all parcels, strings and points that have it.
 * @param {Item} item
 * @returns {Box}
 */
function boxOfItem(item) {
  const place = placeOf(plan, item.kind, item.number);
  const box = noBox();
  const items = item.kind === 'source' && place !== undefined
    ? ROW_KINDS.flatMap((kind) => rowsWith(plan, kind, place)) : [item];
  for (const it of items) {
    const drawn = drawnOf(plan, it);
    if (drawn) {
      const { west, south, east, north } = boxOf(drawn.geometry, it.kind, drawn.place);
      stretch(box, west, south);
      stretch(box, east, north);
    }
  }
  return box;
}

/**
 * Moves the map so that a row is well seen, where it isn't.
 * @param {Item} item
 */
function show(item) {
  const box = boxOfItem(item);
  if (box.west > box.east) {
    return;
  }
  const size = Math.max(box.east - box.west, box.north - box.south);
  const isSeen = map.getBounds().contains(latLngs(box)) && Math.max(size, middle) * scaleAt(map.getZoom()) >= 60;
  if (!isSeen) {
    map.fitBounds(latLngs(widened(box, Math.max(size / 4, middle))), { animate: !isCalm });
  }
}

/**
 * Chooses a row from a list, and shows it on the map.
 * @param {Item} item
 */
function chooseAndShow(item) {
  choose(item);
  show(item);
}

/** Chooses what the address names after its `#`, such as `#parcel-101`. */
function chooseByAddress() {
  const found = /^#(parcel|string|point|source)-([1-9]\d{0,8})$/.exec(location.hash);
  if (found) {
    chooseAndShow({ kind: /** @type {Kind} */ (found[1]), number: Number(found[2]) });
  }
}

// ---- Scale and position

/**
 * The longest of 1, 2, 5, 10, 20 .. that isn't more than this.
 * @param {number} most
 * @returns {number}
 */
function roundBelow(most) {
  const power = 10 ** Math.floor(Math.log10(most));
  return power * ([5, 2, 1].find((it) => it * power <= most) ?? 1);
}

/**
 * A length as a scale bar tells it.
 * @param {number} millimetres
 * @returns {string}
 */
function lengthSaid(millimetres) {
  return millimetres >= 1e6 ? `${millimetres / 1e6} km` : millimetres >= 1000 ? `${millimetres / 1000} m`
    : `${millimetres} mm`;
}

/** Tells the scale of the view, and whether points are drawn at it. */
function tellScale() {
  const scale = scaleAt(map.getZoom());
  const length = roundBelow(110 / scale);
  byId('bar').style.width = `${length * scale}px`;
  byId('bar-length').textContent = lengthSaid(length);
  byId('points-note').textContent = middle * scale < POINTS_FROM ? '(drawn when you zoom in)' : '';
  /** @type {HTMLButtonElement} */ (byId('zoom-in')).disabled = map.getZoom() >= map.getMaxZoom();
  /** @type {HTMLButtonElement} */ (byId('zoom-out')).disabled = map.getZoom() <= map.getMinZoom();
}

/**
 * Tells a position in metres, to a centimetre or, where a pixel is wider, to a metre.
 * @param {any} latLng
 */
function tellPosition(latLng) {
  const step = scaleAt(map.getZoom()) < 0.001 ? 1000 : 10;
  const said = (/** @type {number} */ value, /** @type {number} */ from) =>
    metres(Math.round((value + from) / step) * step).slice(0, step === 10 ? -1 : -4);
  byId('position').textContent = `E ${said(latLng.lng, plan.origin[0])}, N ${said(latLng.lat, plan.origin[1])}`;
}

// ---- The search and the list of changes

/** Shows what the search finds. */
function search() {
  const query = /** @type {HTMLInputElement} */ (byId('query')).value;
  const groups = searched(plan, query);
  const count = groups.reduce((sum, it) => sum + it.count, 0);
  byId('found').textContent = !query.trim() ? '' : count ? `${count} found` : 'Nothing found';
  byId('results').replaceChildren(...groups.flatMap(({ title, items, count: all }) =>
    [element('h3', {}, title), listed(items.map((it) => lineOf(plan, it)), all)]));
}

/**
 * Moves the focus among what was found, and between it and the search.
 * @param {KeyboardEvent} event
 */
function walkResults(event) {
  const step = { ArrowDown: 1, ArrowUp: -1 }[event.key];
  const links = [...byId('search').querySelectorAll('input, .link')];
  const at = links.indexOf(/** @type {Element} */ (document.activeElement));
  if (step && links[at + step]) {
    event.preventDefault();
    /** @type {HTMLElement} */ (links[at + step]).focus();
  }
}

/** Tells what changed since the older plan, where there is one. */
function tellChanges() {
  const { since } = plan;
  if (!since) {
    return;
  }
  byId('changes').hidden = byId('changes-layer').hidden = false;
  byId('changes-title').replaceChildren('Changes since ', said(since.name));
  const words = ['added', 'changed', 'removed'];
  const counts = words.map((word) => `${since.changes.filter((it) => it.word === word).length} ${word}`);
  byId('change-counts').textContent = since.changes.length ? counts.join(', ') : 'There are none.';
  for (const [kind, title] of Object.entries(GROUPS)) {
    const all = since.changes.filter((it) => it.kind === kind);
    if (all.length) {
      byId('change-list').append(element('h3', {}, `${title} (${all.length})`),
        listed(all.slice(0, 4 * MOST_LISTED).map((it) => lineOf(plan, it)), all.length));
    }
  }
}

/** Tells how much the plan has. */
function tellCounts() {
  const said = (/** @type {number} */ count, /** @type {string} */ one, /** @type {string} */ more) =>
    `${count.toLocaleString('en')} ${count === 1 ? one : more}`;
  const { parcels, strings, points } = plan;
  byId('counts').textContent = [said(parcels.number.length, 'parcel', 'parcels'),
    said(strings.number.length, 'boundary', 'boundaries'), said(points.number.length, 'point', 'points')].join(', ');
}

// ---- Paper

/** Draws the view for a sheet of paper, at the largest of the usual scales at which it has room. */
function drawPaper() {
  const { x: wide, y: high } = map.getSize();
  const seen = Math.max(wide / PAPER.x, high / PAPER.y) / scaleAt(map.getZoom()); // Millimetres a pixel of paper.
  const denominator = roundAbove(seen * PAPER_SCALE);
  const scale = PAPER_SCALE / denominator;
  const { lng, lat } = map.getCenter();
  const canvas = /** @type {HTMLCanvasElement} */ (byId('paper-map'));
  canvas.style.width = `${PAPER.x}px`;
  canvas.style.height = `${PAPER.y}px`;
  const corner = { x: lng - PAPER.x / 2 / scale, y: lat + PAPER.y / 2 / scale };
  const sheet = sheetOf(canvas, corner, scale, PAPER, PAPER_RATIO);
  drawMap(plan, sheet, layers);
  drawChosen(plan, sheet, chosen);
  const length = roundBelow(50 * denominator);
  byId('paper-bar').style.width = `${length * scale}px`;
  byId('paper-length').textContent = lengthSaid(length);
  byId('paper-scale').textContent = `1 : ${denominator.toLocaleString('en')}`;
}

/**
 * The least of 1, 2, 2.5 and 5 with zeros behind that isn't less than this: the scales of a drawing by cadview.
 * @param {number} least
 * @returns {number}
 */
function roundAbove(least) {
  const power = 10 ** Math.floor(Math.log10(Math.max(1, least)));
  return power * ([1, 2, 2.5, 5].find((it) => it * power >= least) ?? 10);
}

// ---- What is done when

/** Ties the map to its tiles and to the texts beside it. */
function startMap() {
  mapTiles.addTo(map);
  map.on('click', (/** @type {any} */ event) => chooseAt({ x: event.latlng.lng, y: event.latlng.lat }));
  map.on('zoomend', tellScale);
  map.on('mousemove', (/** @type {any} */ event) => tellPosition(event.latlng));
  map.on('mouseout', () => (byId('position').textContent = ''));
  map.on('moveend', () => byId('map').matches('.by-keys:focus') && tellPosition(map.getCenter()));
  document.addEventListener('keydown', () => byId('map').classList.add('by-keys'), true);
  document.addEventListener('pointerdown', () => byId('map').classList.remove('by-keys'), true);
  byId('map').addEventListener('keydown', (event) => {
    const zoom = { '+': 1, '=': 1, '-': -1, _: -1 }[event.key];
    if (event.key === 'Enter') {
      const { lng, lat } = map.getCenter();
      chooseAt({ x: lng, y: lat });
    } else if (zoom) {
      map.setZoom(map.getZoom() + zoom); // Leaflet would take three steps where a keyboard has + above =.
      event.stopPropagation();
    }
  });
}

/** Ties the controls to what they do. */
function startControls() {
  byId('zoom-in').addEventListener('click', () => map.zoomIn(1));
  byId('zoom-out').addEventListener('click', () => map.zoomOut(1));
  byId('whole').addEventListener('click', showWhole);
  byId('print').addEventListener('click', () => window.print());
  byId('close').addEventListener('click', () => choose(null));
  for (const name of /** @type {(keyof Layers)[]} */ (Object.keys(layers))) {
    const box = /** @type {HTMLInputElement} */ (byId(`show-${name}`));
    box.addEventListener('change', () => {
      layers[name] = box.checked;
      drawAgain();
    });
    layers[name] = box.checked; // A browser may have kept what was ticked.
  }
  document.addEventListener('click', (event) => {
    const pressed = /** @type {HTMLElement} */ (event.target).closest?.('[data-kind]');
    if (pressed instanceof HTMLElement) {
      chooseAndShow({ kind: /** @type {Kind} */ (pressed.dataset.kind), number: Number(pressed.dataset.number) });
    }
  });
  document.addEventListener('keydown', (event) => {
    if (event.key === 'Escape' && chosen) {
      choose(null);
    }
  });
}

/** Ties the search to its list. */
function startSearch() {
  byId('query').addEventListener('input', search);
  byId('search').addEventListener('keydown', walkResults);
  byId('search').addEventListener('submit', (event) => {
    event.preventDefault();
    /** @type {HTMLElement | null} */ (byId('results').querySelector('.link'))?.click();
  });
}

tellCounts();
tellChanges();
showWhole();
startMap();
startControls();
startSearch();
tellScale();
chooseByAddress();
window.addEventListener('hashchange', chooseByAddress);
window.addEventListener('beforeprint', drawPaper);
