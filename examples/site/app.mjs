import "./lib/greet.mjs";
import "./pages/home.mjs";
import "./pages/[id].mjs";
