// The version of the engine in use.
import {inUse} from "./engine.mjs";

export function version() {
  const number = inUse.engine.calls.rudekpi_version();
  return [number / 1_000_000, (number / 1000) % 1000, number % 1000].map(Math.floor).join(".");
}
