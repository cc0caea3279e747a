// The first networks: nodes 1 to `nodes`, their edges `links`, and the nodes' `places` by name; without
// places the page computes some.
import {distanceToStretch} from "../hit.mjs";
import {chanceOf} from "./chance.mjs";

export const MOST_NODES = 500;
// how many times wider than high a field of nodes is
const WIDE = 1.6;
// distances in a field with a square of 1 for each node
const DISK_REACH = 1.32;
const MESH_REACH = 2.1;
const JITTER = 0.24;
// no link of a mesh comes nearer to a third node
const CLEAR = 0.3;
const RACK_HOSTS = 8;
// how many leaves of a star lie on one circle
const ROUND = 40;

/** @param {number} nodes */
function ring(nodes) {
  const links = Array.from({ length: nodes - 1 }, (_, at) => [at + 1, at + 2]);
  return { links: nodes > 2 ? [...links, [1, nodes]] : links };
}

/** @param {number} nodes */
function path(nodes) {
  return { links: Array.from({ length: nodes - 1 }, (_, at) => [at + 1, at + 2]) };
}

/** @param {number} nodes */
function columnsOf(nodes) {
  return Math.max(1, Math.round(Math.sqrt(nodes * WIDE)));
}

/** @param {number} nodes */
function grid(nodes) {
  const columns = columnsOf(nodes);
  /** @type {Link[]} */
  const links = [];
  for (let v = 1; v <= nodes; v += 1) {
    if (v % columns !== 0 && v < nodes) {
      links.push([v, v + 1]);
    }
    if (v + columns <= nodes) {
      links.push([v, v + columns]);
    }
  }
  const places = Array.from({ length: nodes }, (_, at) => [at % columns, Math.floor(at / columns)]);
  return { links, places };
}

/**
 * @param {number} angle
 * @param {number} far
 * @returns {Link}
 */
function around(angle, far) {
  return [far * Math.cos(angle), far * Math.sin(angle)];
}

/**
 * The hub in the middle, the others on a circle; many lie like sunflower seeds (Vogel, 1979), since their
 * circle would be too large.
 * @param {number} nodes
 */
function star(nodes) {
  const leaves = nodes - 1;
  /** @param {number} at */
  const onCircle = (at) => around((2 * Math.PI * at) / leaves - Math.PI / 2, Math.max(1.6, nodes / 6));
  /** @param {number} at */
  const inFlower = (at) => around(at * Math.PI * (3 - Math.sqrt(5)), 0.6 * Math.sqrt(at + 3));
  const places =
    Array.from({ length: nodes }, (_, at) => (at === 0 ? [0, 0] : (leaves > ROUND ? inFlower : onCircle)(at)));
  return { links: Array.from({ length: leaves }, (_, at) => [1, at + 2]), places };
}

/**
 * @param {number[]} one
 * @param {number[]} other
 */
function distance([x1, y1], [x2, y2]) {
  return Math.hypot(x1 - x2, y1 - y2);
}

/**
 * @param {Link[]} places
 * @param {number} reach
 */
function near(places, reach) {
  /** @type {Link[]} */
  const links = [];
  places.forEach((place, at) => {
    for (let other = at + 1; other < places.length; other += 1) {
      if (distance(place, places[other]) <= reach) {
        links.push([at + 1, other + 1]);
      }
    }
  });
  return links;
}

/**
 * Radios at random places, linked to all in reach; none lies on another.
 * @param {number} nodes
 * @param {number} seed
 */
function unitDisk(nodes, seed) {
  const chance = chanceOf(seed);
  const height = Math.sqrt(nodes / WIDE);
  /** @type {Link[]} */
  const places = [];
  for (let apart = 0.62; places.length < nodes; apart *= 0.97) {
    for (let tries = 0; tries < 40 && places.length < nodes; tries += 1) {
      const place = [chance() * height * WIDE, chance() * height];
      if (places.every((other) => distance(place, other) >= apart)) {
        places.push(place);
      }
    }
  }
  return { links: near(places, DISK_REACH), places };
}

/**
 * @param {Link[]} places
 * @param {number} v
 * @param {number} w
 */
function isClear(places, v, w) {
  return places.every(([x, y], at) => at === v || at === w || distanceToStretch(x, y, places[v], places[w]) > CLEAR);
}

/**
 * Routers and hosts on a shaken grid. One of three nodes is a router, linked to all near it. Each other node
 * links to the two nearest routers, with clear links if possible.
 * @param {number} nodes
 * @param {number} seed
 */
function mesh(nodes, seed) {
  const chance = chanceOf(seed);
  const columns = columnsOf(nodes);
  const shaken = () => (2 * chance() - 1) * JITTER;
  const places = Array.from({ length: nodes }, (_, at) => {
    const row = Math.floor(at / columns);
    return [(at % columns) + (row % 2) * 0.5 + shaken(), row * 0.95 + shaken()];
  });
  /** @param {number} at */
  const isRouter = (at) => ((at % columns) + 2 * Math.floor(at / columns) + (Math.floor(at / columns) >> 1)) % 3 === 1;
  const routers = places.flatMap((_, at) => (isRouter(at) ? [at] : []));
  const links =
    near(places, MESH_REACH).filter(([v, w]) => isRouter(v - 1) && isRouter(w - 1) && isClear(places, v - 1, w - 1));
  places.forEach((place, at) => {
    if (!isRouter(at)) {
      const nearest = [...routers].sort((v, w) => distance(place, places[v]) - distance(place, places[w])).slice(0, 4);
      const clear = nearest.filter((router) => isClear(places, at, router));
      (clear.length > 0 ? clear : nearest).slice(0, 2).forEach((router) => links.push([
        Math.min(at, router) + 1, Math.max(at, router) + 1
      ]));
    }
  });
  return { links, places };
}

/**
 * A tree with further edges: three edges for every two nodes in all.
 * @param {number} nodes
 * @param {number} seed
 */
function random(nodes, seed) {
  const chance = chanceOf(seed);
  /** @param {number} most */
  const below = (most) => Math.floor(chance() * most);
  const links = new Map();
  /**
   * @param {number} v
   * @param {number} w
   */
  const link = (v, w) =>
    v !== w && links.set(Math.min(v, w) * 65536 + Math.max(v, w), [Math.min(v, w), Math.max(v, w)]);
  for (let v = 2; v <= nodes; v += 1) {
    link(v, 1 + below(v - 1));
  }
  const most = Math.min(Math.floor(nodes * 1.5), (nodes * (nodes - 1)) / 2);
  while (links.size < most) {
    link(1 + below(nodes), 1 + below(nodes));
  }
  return { links: [...links.values()] };
}

/**
 * Hosts in racks: the partner that holds a host's copy must be in the next rack, so that no rack takes both
 * away.
 * @param {number} nodes
 */
function racks(nodes) {
  const hosts = Math.min(RACK_HOSTS, Math.max(2, Math.round(Math.sqrt(nodes / WIDE))));
  const places = Array.from({ length: nodes }, (_, at) => [Math.floor(at / hosts) * 1.9, at % hosts]);
  /** @type {Link[]} */
  const links = [];
  for (let v = 1; v + hosts <= nodes; v += 1) {
    const [rack, place] = [Math.floor((v - 1) / hosts), (v - 1) % hosts];
    for (const other of [place - 1, place, place + 1]) {
      const w = (rack + 1) * hosts + other + 1;
      if (other >= 0 && other < hosts && w <= nodes) {
        links.push([v, w]);
      }
    }
  }
  return { links, places };
}

/** By their words in the page, with the initial number of nodes. */
/**
 * @type {Record<string, { name: string, nodes: number,
 *   make: (nodes: number, seed: number) => { links: Link[], places?: Link[] } }>}
 */
export const PRESETS = {
  mesh: {name: "wireless mesh", nodes: 15, make: mesh},
  ring: {name: "ring", nodes: 12, make: ring},
  path: {name: "path", nodes: 12, make: path},
  grid: {name: "grid", nodes: 24, make: grid},
  star: {name: "star", nodes: 12, make: star},
  disk: {name: "unit disk", nodes: 30, make: unitDisk},
  random: {name: "random", nodes: 24, make: random},
  racks: {name: "racks of backup partners", nodes: 24, make: racks},
};

/**
 * Makes 2 to 500 nodes.
 * @param {number} nodes
 * @param {number} seed
 * @param {string} kind
 * @returns {Network & { links: Link[] }}
 */
export function presetOf(kind, nodes, seed) {
  const count = Math.min(MOST_NODES, Math.max(2, Math.round(nodes) || 2));
  return { nodes: count, ...PRESETS[kind].make(count, seed) };
}
