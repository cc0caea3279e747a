export * from "./rudekpi.js";
