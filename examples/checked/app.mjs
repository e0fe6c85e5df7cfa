import { draw } from "shapes";
import { red } from "shapes/colors/red.js";
import { now } from "clock";

draw(red, now());
