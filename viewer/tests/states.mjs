// The state of a machine, in the program's words.

export function enabledOf(machine) {
  const found = machine.rule.flatMap((rule, v) => (rule ? [`${v}:${rule}`] : []));
  return found.join(" ") || "none";
}

export function pairsOf(machine) {
  const found = machine.edges().filter(([v, w]) => machine.partner(v) === w);
  return found.sort((a, b) => a[0] - b[0]).map((pair) => pair.join("-")).join(" ") || "none";
}

/** The lines of a replay's base after `number` entries. */
export function baseAt(replay, number) {
  const machine = replay.goTo(number);
  const present = Array.from({ length: machine.nodes }, (_, at) => at + 1).filter((v) => machine.here[v]);
  const edges = machine.edges().sort((a, b) => a[0] - b[0] || a[1] - b[1]);
  return [
    `matching2 ${machine.rules} ${machine.nodes}`,
    `base ${number} spent=${replay.valueAt("spent", number)} nodes=${present.length} edges=${edges.length}`,
    ...present.map((v) => `node ${v} ${machine.pointer[v] || "-"} ${machine.flag[v]}`),
    ...edges.map((edge) => `edge ${edge.join(" ")}`),
  ];
}
