// What a Node script does for the same job: it lexes each module by es-module-lexer, resolves its specifiers by Node's
// own resolver, from the entry on, and takes the SHA-384 digest of each module; modules of Node's own are passed over.
// Where a second word names a file, the map of all that is written there, its mappings without scopes. It ends with 77
// where es-module-lexer isn't installed.
import { createHash } from "node:crypto";
import { readFileSync, writeFileSync } from "node:fs";
import { pathToFileURL } from "node:url";

async function lexer() {
  const installed = "file:///usr/share/nodejs/es-module-lexer/dist/lexer.js";
  for (const name of ["es-module-lexer", installed, process.env.ES_MODULE_LEXER]) {
    try {
      return await import(name);
    } catch {
      // The next place may have it.
    }
  }
  process.exit(77);
}

function digest(bytes) {
  return `sha384-${createHash("sha384").update(bytes).digest("base64")}`;
}

function isRelative(specifier) {
  return specifier.startsWith("/") || specifier.startsWith("./") || specifier.startsWith("../");
}

const { init, parse } = await lexer();
await init;
const entry = pathToFileURL(process.argv[2]).href;
const map = { imports: {}, integrity: {} };
const seen = new Set([entry]);
let requests = 1;
for (const url of seen) {
  const bytes = readFileSync(new URL(url));
  map.integrity[url] = digest(bytes);
  const [imports] = parse(bytes.toString("utf8"));
  for (const { n } of imports) {
    requests += 1;
    const target = import.meta.resolve(n, url);
    if (target.startsWith("file:")) {
      seen.add(target);
    }
    if (!isRelative(n)) {
      map.imports[n] = target;
    }
  }
}
if (process.argv[3] !== undefined) {
  writeFileSync(process.argv[3], JSON.stringify(map, null, 2) + "\n");
}
console.log(`ok: ${seen.size} modules, ${requests} requests`);
