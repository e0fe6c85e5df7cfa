import "./words.mjs";
