// Compiled by tests/lint and never run: checks that the module has all that rudekpi.d.ts declares.
import * as made from "./src/rudekpi.mjs";

export const module: typeof import("./rudekpi") = made;
