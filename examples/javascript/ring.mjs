// A ring of twelve nodes settles, is broken by a fault and a leaving node, and mends itself. The transcript
// is printed; the pairs and the verdict go to standard error. Run: node ring.mjs
import {audit, Network, Refused} from "../../release/rudekpi.mjs";

/** A network that has settled after a fault and a leaving node. */
function mended() {
  const ring = new Network("manne", 12);
  for (let node = 1; node <= 12; node += 1) {
    ring.link(node, (node % 12) + 1);
  }
  ring.drive(7, 100);
  console.error("pairs:", ring.matching().pairs);
  console.error("if node 4 went, the charge would grow by", ring.costOf("leave", 4), "at most");
  ring.point(1, 12);
  ring.leave(4);
  const { status } = ring.drive(8, 100);
  console.error(`${ring.matching().pairs.length} pairs after ${status.spent} moves`);
  return ring;
}

const ring = mended();
const text = ring.transcript();
const { entries, moves } = audit(text);
console.error(`audit: ${entries} entries, ${moves} moves`);
try {
  ring.link(4, 5);
} catch (wrong) {
  console.error(wrong instanceof Refused ? `node 4 is gone: ${wrong.message}` : wrong);
}
console.log(text.trimEnd());
