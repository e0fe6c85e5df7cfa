import "../lib/greet.mjs";
import "./[id].mjs";
