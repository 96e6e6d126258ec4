/* What the panel and the lists say of rows: elements made of texts, never of HTML. */

const NAMES = { parcel: 'Parcel', string: 'Boundary', point: 'Point', source: 'Source' };
const GROUPS = { parcel: 'Parcels', string: 'Boundaries', point: 'Points', source: 'Sources' };
const MOST_LISTED = 50;
const MOST_CORNERS = 400;

/**
 * An element with attributes and children.
 * @param {string} name
 * @param {Record<string, string>} attributes
 * @param {(Node | string)[]} children
 * @returns {HTMLElement}
 */
function element(name, attributes = {}, ...children) {
  const made = document.createElement(name);
  for (const [key, value] of Object.entries(attributes)) {
    made.setAttribute(key, value);
  }
  made.append(...children);
  return made;
}

/**
 * A text of the plan, apart from what is around it, whatever its direction.
 * @param {string} text
 * @returns {HTMLElement}
 */
function said(text) {
  return element('bdi', {}, visible(text));
}

/**
 * `Parcel 101`
 * @param {Item} item
 * @returns {string}
 */
function nameOf({ kind, number }) {
  return `${NAMES[kind]} ${number}`;
}

/**
 * A button that chooses a row.
 * @param {Item} item
 * @param {(Node | string)[]} children  what it shows; the row's name where this is left out
 * @returns {HTMLElement}
 */
function link(item, ...children) {
  const shown = children.length ? children : [nameOf(item)];
  return element('button', { type: 'button', class: 'link', 'data-kind': item.kind, 'data-number': `${item.number}` },
    ...shown);
}

/**
 * The parts with commas between them, each of which stays on the line of the part before it.
 * @param {Node[]} parts
 * @returns {(Node | string)[]}
 */
function joined(parts) {
  const last = parts.length - 1;
  return parts.flatMap((part, place) =>
    /** @type {(Node | string)[]} */ (
      place < last ? [element('span', { class: 'together' }, part, ','), ' '] : [part]));
}

/**
 * A list of names and what they mean.
 * @param {[string, (Node | string)[]][]} entries
 * @returns {HTMLElement}
 */
function described(entries) {
  return element('dl', {}, ...entries.map(([name, parts]) =>
    element('div', {}, element('dt', {}, name), element('dd', {}, ...parts))));
}

/**
 * The first of many, and how many more there are.
 * @param {Node[]} parts
 * @param {number} count  of all
 * @returns {HTMLElement}
 */
function listed(parts, count) {
  const more = count - parts.length;
  const items = parts.map((it) => element('li', {}, it));
  return element('ul', {}, ...items, ...(more > 0 ? [element('li', { class: 'more' }, `and ${more} more`)] : []));
}

// ---- Sources

/**
 * The sources of a list, with their texts.
 * @param {Plan} plan
 * @param {number} list
 * @returns {(Node | string)[]}
 */
function sourcesSaid(plan, list) {
  const parts = plan.lists[list].map((place) => {
    const item = { kind: /** @type {Kind} */ ('source'), number: plan.sources.number[place] };
    return element('span', {}, link(item, String(item.number)), ' ', said(plan.sources.text[place]));
  });
  return parts.length ? [listed(parts, parts.length)] : ['none'];
}

/**
 * The numbers of the sources of a list.
 * @param {Plan} plan
 * @param {number} list
 * @returns {string}
 */
function sourceNumbers(plan, list) {
  return plan.lists[list].map((place) => plan.sources.number[place]).join(' ');
}

/**
 * The rows of a kind that have a source.
 * @param {Plan} plan
 * @param {'parcel' | 'string' | 'point'} kind
 * @param {number} source  its place
 * @returns {Item[]}
 */
function rowsWith(plan, kind, source) {
  const { sources, number } = rowsOf(plan, kind);
  const lists = plan.lists.map((list) => list.includes(source));
  /** @type {Item[]} */
  const items = [];
  sources.forEach((list, place) => lists[list] && items.push({ kind, number: number[place] }));
  return items;
}

/**
 * @param {Plan} plan
 * @param {number} place
 * @returns {Node[]}
 */
function sourceDetails(plan, place) {
  /** @type {[string, (Node | string)[]][]} */
  const entries = ROW_KINDS.map((kind) => {
    const items = rowsWith(plan, kind, place);
    const links = items.slice(0, MOST_LISTED).map((it) => link(it, String(it.number)));
    const more = items.length > MOST_LISTED ? [` and ${items.length - MOST_LISTED} more`] : [];
    return [`${GROUPS[kind]} (${items.length})`, links.length ? [...joined(links), ...more] : ['none']];
  });
  return [element('p', { class: 'label' }, said(plan.sources.text[place])), described(entries)];
}

// ---- Parcels

/**
 * The parcel at this place, or the outside.
 * @param {Plan} plan
 * @param {number} place
 * @returns {Node}
 */
function faceLink(plan, place) {
  return place < 0 ? document.createTextNode('the outside')
    : link({ kind: 'parcel', number: plan.parcels.number[place] });
}

/**
 * The faces beside a parcel, each with the boundaries between them.
 * @param {Plan} plan
 * @param {number} place
 * @returns {Map<number, number[]>}  places of parcels, numbers of strings
 */
function neighbours({ strings: { left, right, number } }, place) {
  const found = new Map();
  for (let it = 0; it < number.length; it++) {
    if (left[it] !== place && right[it] !== place) {
      continue;
    }
    const beside = left[it] === place ? right[it] : left[it];
    const numbers = found.get(beside);
    if (numbers) {
      numbers.push(number[it]);
    } else {
      found.set(beside, [number[it]]);
    }
  }
  return found;
}

/**
 * The neighbours of a parcel.
 * @param {Plan} plan
 * @param {number} place
 * @returns {HTMLElement}
 */
function neighboursSaid(plan, place) {
  const found = [...neighbours(plan, place)];
  const parts = found.slice(0, MOST_LISTED).map(([beside, numbers]) => {
    const links = numbers.slice(0, MOST_LISTED).map((number) => link({ kind: 'string', number }, String(number)));
    const more = numbers.length > links.length ? [` and ${numbers.length - links.length} more`] : [];
    return element('span', {}, faceLink(plan, beside), ` along ${numbers.length > 1 ? 'boundaries' : 'boundary'} `,
      ...joined(links), ...more);
  });
  return listed(parts, found.length);
}

/**
 * A table of the corners of a ring.
 * @param {Plan} plan
 * @param {string} title
 * @param {Int32Array} corners
 * @returns {HTMLElement}
 */
function cornerTable(plan, title, corners) {
  const { points, origin } = plan;
  const rows = Array.from(corners.subarray(0, MOST_CORNERS), (it) => element('tr', {},
    element('th', { scope: 'row' }, link({ kind: 'point', number: points.number[it] }, String(points.number[it]))),
    element('td', {}, metres(points.x[it] + origin[0])), element('td', {}, metres(points.y[it] + origin[1])),
    element('td', {}, sourceNumbers(plan, points.sources[it]))));
  const heads = ['Point', 'East, m', 'North, m', 'Sources'].map((it) => element('th', { scope: 'col' }, it));
  const more = corners.length - rows.length;
  const count = `${title}, ${corners.length} corners${more > 0 ? `; the first ${rows.length}` : ''}`;
  return element('table', {}, element('caption', {}, count), element('thead', {}, element('tr', {}, ...heads)),
    element('tbody', {}, ...rows));
}

/**
 * @param {Plan} plan
 * @param {number} place
 * @returns {Node[]}
 */
function parcelDetails(plan, place) {
  const { parcels } = plan;
  const [first, end] = [parcels.ringsFrom[place], parcels.ringsFrom[place + 1]];
  const tables = Array.from({ length: Math.min(MOST_LISTED, end - first) }, (_, it) => cornerTable(plan,
    it ? `Hole ${it}` : 'Outline',
    parcels.corners.subarray(parcels.cornersFrom[first + it], parcels.cornersFrom[first + it + 1])));
  const more = end - first - tables.length;
  return [
    element('p', { class: 'label' }, said(parcels.label[place])),
    described([['Area', [`${parcels.area[place]} m²`]], ['Sources', sourcesSaid(plan, parcels.sources[place])],
      ['Neighbours', [neighboursSaid(plan, place)]]]),
    ...changeDetails(plan, { kind: 'parcel', number: parcels.number[place] }),
    ...tables,
    ...(more > 0 ? [element('p', {}, `and ${more} more holes`)] : [])];
}

// ---- Boundaries and points

/**
 * @param {Plan} plan
 * @param {number} place
 * @returns {Node[]}
 */
function stringDetails(plan, place) {
  const { strings, points } = plan;
  const end = (/** @type {number} */ point) => link({ kind: 'point', number: points.number[point] });
  return [described([['From', [end(strings.first[place])]], ['To', [end(strings.second[place])]],
    ['On its left', [faceLink(plan, strings.left[place])]], ['On its right', [faceLink(plan, strings.right[place])]],
    ['Sources', sourcesSaid(plan, strings.sources[place])]])];
}

/**
 * @param {Plan} plan
 * @param {number} place
 * @returns {Node[]}
 */
function pointDetails(plan, place) {
  const { strings: { first, second, number }, points, origin } = plan;
  const links = Array.from(number).filter((_, it) => first[it] === place || second[it] === place)
    .map((it) => link({ kind: 'string', number: it }, String(it)));
  const shown = links.slice(0, MOST_LISTED);
  const more = links.length > shown.length ? [` and ${links.length - shown.length} more`] : [];
  return [described([['East', [`${metres(points.x[place] + origin[0])} m`]],
    ['North', [`${metres(points.y[place] + origin[1])} m`]],
    ['Boundaries', shown.length ? [...joined(shown), ...more] : ['none: it stands alone']],
    ['Sources', sourcesSaid(plan, points.sources[place])]])];
}

// ---- What changed

/**
 * What became of a row since the older plan; nothing where nothing did.
 * @param {Plan} plan
 * @param {Item} item
 * @returns {Node[]}
 */
function changeDetails({ since }, { kind, number }) {
  const change = since?.of[kind].get(number);
  if (!since || !change) {
    return kind === 'string' && since?.moved.has(number)
      ? [element('p', { class: 'word changed' }, 'changed: its ends moved')] : [];
  }
  /** @type {[string, (Node | string)[]][]} */
  const entries = [];
  if (change.was) {
    entries.push(['Was', [element('span', { class: 'told' }, said(change.was))]]);
  }
  if (change.now) {
    const isRetired = kind === 'parcel' && change.now === 'retired';
    const now = isRetired ? 'retired: a merger ended it' : said(change.now);
    entries.push(['Is', [element('span', { class: 'told' }, now)]]);
  }
  const word = element('p', { class: `word ${change.word}` }, `${change.word} since `, said(since.name));
  return [word, described(entries)];
}

/**
 * All that the panel says of a row.
 * @param {Plan} plan
 * @param {Item} item
 * @returns {Node[]}
 */
function detailsOf(plan, item) {
  const place = placeOf(plan, item.kind, item.number);
  const make = { parcel: parcelDetails, string: stringDetails, point: pointDetails, source: sourceDetails }[item.kind];
  const retired = item.kind === 'parcel' && plan.retired.has(item.number) && !plan.since?.of.parcel.has(item.number)
    ? [element('p', {}, 'A merger ended this parcel.')] : [];
  if (place === undefined) {
    const known = [...changeDetails(plan, item), ...retired];
    return known.length ? known : [element('p', {}, 'The plan has none of this number.')];
  }
  return [...make(plan, place), ...(item.kind === 'parcel' ? [] : changeDetails(plan, item))];
}

/**
 * A line of a list: a row's name with its label or text, and what became of it.
 * @param {Plan} plan
 * @param {Item} item
 * @returns {HTMLElement}
 */
function lineOf(plan, item) {
  const place = placeOf(plan, item.kind, item.number);
  const texts = { parcel: plan.parcels.label, source: plan.sources.text, string: null, point: null }[item.kind];
  const word = place === undefined ? plan.since?.of[item.kind].get(item.number)?.word
    : wordOf(plan, item.kind, place);
  return link(item, nameOf(item), ...(texts && place !== undefined ? [' ', said(texts[place])] : []),
    ...(word ? [' ', element('span', { class: `word ${word}` }, word)] : []));
}
