// Places the boxes of a graph whose edges all go forward in layers, with few crossings, each box near the middle of its neighbours.

/**
 * A box, or a bend of an edge in a layer that it passes.
 * @typedef {object} Box
 * @property {number} width
 * @property {number} height
 * @property {boolean} isBend
 * @property {number} layer
 * @property {number} order in its layer
 * @property {number} x of its middle
 * @property {number} y of its top
 * @property {number} bottom
 * @property {Box[]} above
 * @property {Box[]} below
 */

const SIDE_GAP = 26, LAYER_GAP = 36, ORDER_ROUNDS = 16, PLACE_ROUNDS = 24, BEND_WIDTH = 10;

/**
 * @param {number} width
 * @param {number} height
 * @param {boolean} isBend
 * @returns {Box}
 */
export function newBox(width, height, isBend = false) {
  return { width, height, isBend, layer: 0, order: 0, x: 0, y: 0, bottom: 0, above: [], below: [] };
}

/**
 * @param {Box} from
 * @param {Box} to
 */
function join(from, to) {
  from.below.push(to);
  to.above.push(from);
}

/**
 * @param {Box[]} boxes
 * @param {(box: Box) => number} of
 */
const mean = (boxes, of) => boxes.reduce((sum, box) => sum + of(box), 0) / boxes.length;

/**
 * How many pairs of edges cross between two layers.
 * @param {Box[]} layer
 */
function crossings(layer) {
  const ends = layer.flatMap((box) => box.below.map((next) => [box.order, next.order]));
  let count = 0;
  ends.forEach(([from, to], at) => {
    for (let other = at + 1; other < ends.length; other++) {
      if ((from - ends[other][0]) * (to - ends[other][1]) < 0) count++;
    }
  });
  return count;
}

/** @param {Box[]} layer */
const numberBoxes = (layer) => layer.forEach((box, at) => (box.order = at));

/**
 * Orders each layer by the middle of its neighbours, from the top and from the bottom in turn, and keeps the order with the fewest crossings.
 * @param {Box[][]} layers
 */
function orderLayers(layers) {
  layers.forEach(numberBoxes);
  let best = layers.map((layer) => [...layer]), least = Infinity;
  for (let round = 0; round < ORDER_ROUNDS && least > 0; round++) {
    const goesDown = round % 2 === 0;
    for (const layer of goesDown ? layers : [...layers].reverse()) {
      const keys = new Map(layer.map((box) => {
        const near = goesDown ? box.above : box.below;
        return [box, near.length ? mean(near, (next) => next.order) : box.order];
      }));
      layer.sort((one, other) => (keys.get(one) || 0) - (keys.get(other) || 0) || one.order - other.order);
      numberBoxes(layer);
    }
    const count = layers.reduce((sum, layer) => sum + crossings(layer), 0);
    if (count < least) [least, best] = [count, layers.map((layer) => [...layer])];
  }
  best.forEach((layer, at) => {
    layers[at] = layer;
    numberBoxes(layer);
  });
}

/**
 * The places nearest to the wanted ones that keep these distances from one to the next.
 * @param {number[]} wanted
 * @param {number[]} distances from the one before; the first is not used
 */
function settle(wanted, distances) {
  let sum = 0;
  const shifts = distances.map((distance, at) => (sum += at ? distance : 0));
  /** @type {{ total: number, count: number }[]} */
  const groups = [];
  wanted.forEach((x, at) => {
    let group = { total: x - shifts[at], count: 1 };
    for (let last = groups[groups.length - 1]; last && last.total / last.count > group.total / group.count; last = groups[groups.length - 1]) {
      group = { total: last.total + group.total, count: last.count + group.count };
      groups.pop();
    }
    groups.push(group);
  });
  return groups.flatMap(({ total, count }) => Array.from({ length: count }, () => total / count)).map((x, at) => x + shifts[at]);
}

/** @param {Box[][]} layers */
function placeAcross(layers) {
  for (const layer of layers) {
    let x = 0;
    for (const box of layer) {
      box.x = x + box.width / 2;
      x += box.width + SIDE_GAP;
    }
  }
  for (let round = 0; round < PLACE_ROUNDS; round++) {
    const goesDown = round % 2 === 0;
    for (const layer of goesDown ? layers : [...layers].reverse()) {
      const wanted = layer.map((box) => {
        const near = goesDown ? box.above : box.below;
        return near.length ? mean(near, (next) => next.x) : box.x;
      });
      const distances = layer.map((box, at) => (at ? (layer[at - 1].width + box.width) / 2 + SIDE_GAP : 0));
      settle(wanted, distances).forEach((x, at) => (layer[at].x = x));
    }
  }
}

/** @param {Box[][]} layers */
function placeDown(layers) {
  let y = 0;
  for (const layer of layers) {
    const height = Math.max(...layer.map((box) => box.height));
    for (const box of layer) {
      box.y = y;
      box.bottom = y + (box.isBend ? height : box.height);
    }
    y += height + LAYER_GAP;
  }
}

/**
 * Places boxes.
 * @param {Box[]} boxes in an order in which all edges go forward
 * @param {[Box, Box][]} edges
 * @param {(box: Box) => boolean} isLast which boxes belong into the last layer
 * @returns {Box[][]} of each edge the boxes and bends that it passes, its ends among them
 */
export function place(boxes, edges, isLast) {
  for (const box of boxes) {
    edges.forEach(([from, to]) => {
      if (from === box) to.layer = Math.max(to.layer, box.layer + 1);
    });
  }
  const last = Math.max(...boxes.map((box) => box.layer));
  boxes.filter(isLast).forEach((box) => (box.layer = last));
  /** @type {Box[][]} */
  const layers = Array.from({ length: last + 1 }, () => []);
  boxes.forEach((box) => layers[box.layer].push(box));
  const chains = edges.map(([from, to]) => {
    const bends = Array.from({ length: to.layer - from.layer - 1 }, (_, at) => {
      const bend = newBox(BEND_WIDTH, 0, true);
      layers[(bend.layer = from.layer + 1 + at)].push(bend);
      return bend;
    });
    const chain = [from, ...bends, to];
    chain.slice(1).forEach((box, at) => join(chain[at], box));
    return chain;
  });
  orderLayers(layers);
  placeAcross(layers);
  placeDown(layers);
  return chains;
}
