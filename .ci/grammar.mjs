// Compares what the statement grammar says of files, a line each, with what Node's parser says of them as modules.
import { readFileSync } from "node:fs";
import { SourceTextModule } from "node:vm";

const counts = { both: 0, neither: 0, "no outline, and Node refuses": 0 };
const kinds = new Map();
const refused = [];
const seen = new Set();

function node(text) {
    try {
        new SourceTextModule(text);
        return null;
    } catch (fault) {
        return fault.message;
    }
}

for (const line of readFileSync(process.argv[2], "utf8").split("\n")) {
    const found = /^(agrees|differs|syntax at \d+|too deep|no outline|unread|no memory) (.*)$/.exec(line);
    if (found === null || found[1] === "unread") continue;
    const text = readFileSync(found[2], "utf8");
    if (seen.has(text)) continue;
    seen.add(text);
    const fault = node(text);
    if (found[1] === "agrees" && fault === null) counts.both += 1;
    else if (found[1] === "agrees") kinds.set(fault, (kinds.get(fault) ?? 0) + 1);
    else if (fault === null) refused.push(line);
    else if (found[1] === "no outline") counts["no outline, and Node refuses"] += 1;
    else counts.neither += 1;
}

console.log(counts);
console.log("Taken by the grammar alone:", kinds);
console.log(`Taken by Node alone: ${refused.length}`);
for (const line of refused) console.log(`  ${line}`);
process.exitCode = refused.length === 0 ? 0 : 1;
