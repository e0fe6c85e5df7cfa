import first, { second } from "./first.mjs";
const text = "import './no.mjs'"; // import './none.mjs'
export * as third from './third.mjs' with { type: "module" };
