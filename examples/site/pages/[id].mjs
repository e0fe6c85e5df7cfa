import "../lib/greet.mjs";
