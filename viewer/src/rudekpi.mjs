// Rudekpi as a module for JavaScript: networks and audits, run by the engine inside. Types: rudekpi.d.ts.
import {isProgram, runProgram} from "./program/program.mjs";
import {Audit, audit} from "./rudekpi/audits.mjs";
import {BadView, Damaged, Ended, MemoryError, NoReply, NotCounted, Refused, RudekpiError} from "./rudekpi/errors.mjs";
import {localRule, mayMove} from "./rudekpi/local_rule.mjs";
import {Network} from "./rudekpi/network.mjs";
import {Matching, Wish} from "./rudekpi/replies.mjs";
import {version} from "./rudekpi/version.mjs";

export {
  Audit,
  audit,
  BadView,
  Damaged,
  Ended,
  localRule,
  Matching,
  mayMove,
  MemoryError,
  Network,
  NoReply,
  NotCounted,
  Refused,
  RudekpiError,
  version,
  Wish
};

if (await isProgram(import.meta)) {
  await runProgram();
}
