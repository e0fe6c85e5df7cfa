import { greet } from "hello";

console.log(greet("page"));
