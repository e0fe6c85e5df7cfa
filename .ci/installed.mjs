// Compares `link` with Node itself over npm packages that are installed. Words: the program, a folder with packages in
// its `node_modules`, and conditions besides Node's own. Each package, each subpath that one exports, and each file
// that one names for bundlers is linked as the only entry, and then all that have a map as the entries of one. Where
// `link` writes a map, Node's resolver walks the same modules, each request is resolved through the map as the HTML
// Standard says, and Node has to take each file for a module; where `link` refuses a request, Node has to fail at it,
// or to take the file for something else. Requests are those of declarations and of import calls of a string, as
// es-module-lexer finds them. Each difference is printed; it ends with 1 where there is one, and with 77 without
// es-module-lexer.
import { createHash } from "node:crypto";
import { spawnSync } from "node:child_process";
import { existsSync, readFileSync, readdirSync, rmSync, statSync } from "node:fs";
import { register } from "node:module";
import { fileURLToPath, pathToFileURL } from "node:url";
import { SourceTextModule } from "node:vm";

const [PROGRAM, SITE, ...MORE] = process.argv.slice(2);
const BASE = "https://app.test/";
const ROOT = pathToFileURL(`${SITE}/`).href;
const PAGE = `${ROOT}index.html`;
const CONDITIONS = ["node", "node-addons", "import", "module-sync", ...MORE].join(",");
const LEXER = "file:///usr/share/nodejs/es-module-lexer/dist/lexer.js";
const { init, parse } = await import(LEXER).catch(() => process.exit(77));
await init;

// ---- what is linked

function packages() {
  const names = [];
  for (const name of readdirSync(`${SITE}/node_modules`).sort()) {
    const inner = name.startsWith("@") ? readdirSync(`${SITE}/node_modules/${name}`).sort() : [];
    names.push(...(name.startsWith("@") ? inner.map((one) => `${name}/${one}`) : [name]));
  }
  return names.filter((name) => existsSync(`${SITE}/node_modules/${name}/package.json`));
}

function entriesOf(name) {
  const record = JSON.parse(readFileSync(`${SITE}/node_modules/${name}/package.json`, "utf8"));
  const subpaths = Object.keys(record.exports ?? {}).filter((key) => /^\.\/[^*]*$/.test(key));
  const files = [record.module, record["jsnext:main"], record.es2015].filter((file) => typeof file === "string");
  return [
    name,
    ...subpaths.map((key) => name + key.slice(1)),
    ...files.map((file) => `./node_modules/${name}/${file.replace(/^\.\//, "")}`),
  ];
}

// ---- the HTML Standard's resolution of a module specifier through a map

function asUrl(specifier, referrer) {
  const isRelative = /^(\/|\.\/|\.\.\/)/.test(specifier);
  return URL.canParse(specifier, isRelative ? referrer : undefined)
    ? new URL(specifier, isRelative ? referrer : undefined).href
    : null;
}

function descending(object) {
  return Object.keys(object ?? {}).sort((a, b) => (a < b ? 1 : -1));
}

function match(specifier, url, mappings) {
  const takesPrefixes = url === null || /^(https?|wss?|ftp|file):/.test(url);
  for (const key of descending(mappings)) {
    if (key === specifier) {
      return mappings[key];
    }
    if (takesPrefixes && key.endsWith("/") && specifier.startsWith(key)) {
      return new URL(specifier.slice(key.length), mappings[key]).href;
    }
  }
  return undefined;
}

// A map's addresses and scope keys are parsed against the page's URL.
function parsed(map) {
  const url = (text) => new URL(text, webUrl(PAGE)).href;
  const addresses = (mappings) => Object.fromEntries(Object.entries(mappings).map(([key, to]) => [key, url(to)]));
  const scopes = Object.entries(map.scopes ?? {}).map(([key, mappings]) => [url(key), addresses(mappings)]);
  return { ...map, imports: addresses(map.imports ?? {}), scopes: Object.fromEntries(scopes) };
}

function resolveInMap(map, referrer, specifier) {
  const url = asUrl(specifier, referrer);
  const scopes = descending(map.scopes).filter(
    (scope) => scope === referrer || (scope.endsWith("/") && referrer.startsWith(scope)),
  );
  for (const mappings of [...scopes.map((scope) => map.scopes[scope]), map.imports]) {
    const found = match(url ?? specifier, url, mappings);
    if (found !== undefined) {
      return found;
    }
  }
  return url ?? "nothing";
}

// ---- Node's side

// What Node answers: the URL of a file that is there or of a module of its own, or null.
function nodeAnswers(specifier, referrer) {
  try {
    const url = import.meta.resolve(specifier, referrer);
    return !url.startsWith("file:") || isFile(url) ? url : null;
  } catch {
    return null;
  }
}

function isFile(url) {
  return statSync(fileURLToPath(url.replace(/[?#].*$/, "")), { throwIfNoEntry: false })?.isFile() ?? false;
}

function bytesOf(url) {
  return readFileSync(fileURLToPath(url.replace(/[?#].*$/, "")));
}

// A file asked for with `?format` becomes a module that says how Node would take that file.
const HOOK = `export async function load(url, context, next) {
  if (!url.endsWith("?format")) return next(url, context);
  const format = context.format ?? (await next(url.slice(0, -"?format".length), context)).format;
  return { format: "module", shortCircuit: true, source: "export default " + JSON.stringify(format ?? null) };
}`;
register(`data:text/javascript,${encodeURIComponent(HOOK)}`);

async function nodeFormat(url) {
  const file = url.replace(/[?#].*$/, "");
  return import(`${file}?format`).then((answer) => answer.default).catch((error) => error.code);
}

// An import call has a place of its own, and a name only where its first argument is a string and nothing else.
function isCall(found) {
  return found.d > -1 && found.n !== undefined;
}

// The requests of the modules that entries lead to, and these modules.
function walk(entries) {
  const requests = [];
  const modules = new Set();
  let calls = 0;
  const ask = (specifier, referrer) => {
    const target = nodeAnswers(specifier, referrer);
    requests.push({ referrer, specifier, target });
    if (target?.startsWith("file:")) {
      modules.add(target);
    }
  };
  entries.forEach((entry) => ask(entry, PAGE));
  for (const module of modules) {
    const [found] = parse(bytesOf(module).toString("utf8"));
    for (const request of found.filter((one) => one.d === -1 || isCall(one))) {
      ask(request.n, module);
    }
    calls += found.filter(isCall).length;
  }
  return { requests, modules, calls };
}

// ---- both

function webUrl(url) {
  return BASE + url.slice(ROOT.length);
}

function link(entries) {
  for (const file of ["importmap.json", "importmap.project.json"]) {
    rmSync(`${SITE}/${file}`, { force: true });
  }
  const words = ["link", "--base", BASE, "--conditions", CONDITIONS, ...entries];
  const run = spawnSync(PROGRAM, words, { cwd: SITE, encoding: "utf8" });
  return { status: run.status, line: run.stdout.trim() };
}

// The requests that a map leads elsewhere than Node.
function ledElsewhere(map, requests) {
  const found = [];
  for (const { referrer, specifier, target } of requests) {
    const wanted = target?.startsWith("file:") ? webUrl(target) : target;
    const given = resolveInMap(map, webUrl(referrer), specifier);
    if (given !== wanted) {
      found.push(`${referrer} "${specifier}": Node has ${wanted}, the map ${given}`);
    }
  }
  return found;
}

async function otherFormats(modules) {
  const found = [];
  for (const url of modules) {
    const format = await nodeFormat(url);
    if (format !== "module") {
      found.push(`${url}: Node has it as ${format}`);
    }
  }
  return found;
}

function otherDigests(map, modules) {
  const digests = [...modules].map((url) => {
    const digest = createHash("sha384").update(bytesOf(url)).digest("base64");
    return [webUrl(url), `sha384-${digest}`];
  });
  const isSame = JSON.stringify(Object.fromEntries(digests.sort())) === JSON.stringify(map.integrity ?? {});
  return isSame ? [] : ["the digests are others"];
}

// What differs of a map that was written; its requests are counted.
async function differencesOf(entries, counts) {
  const map = parsed(JSON.parse(readFileSync(`${SITE}/importmap.json`, "utf8")));
  const { requests, modules, calls } = walk(entries);
  counts.requests += requests.length;
  counts.calls += calls;
  return [...ledElsewhere(map, requests), ...(await otherFormats(modules)), ...otherDigests(map, modules)];
}

function isModuleText(text) {
  try {
    return new SourceTextModule(text) !== null;
  } catch {
    return false;
  }
}

// Whether Node takes a file for a module that is refused here for this reason. A name without an extension is left out:
// there Node goes by the package scope's type.
async function isModule(path, reason) {
  const url = pathToFileURL(SITE + path).href;
  if (/^Unreadable /.test(reason)) {
    return isModuleText(bytesOf(url).toString("utf8"));
  }
  const isOwn = reason === "Other" && !/\.[^/]*$/.test(path);
  return !isOwn && (await nodeFormat(url)) === "module";
}

// What differs of a refusal: a request at which Node doesn't fail, a module of its own that isn't one, or a file that
// it takes for a module.
async function wrongRefusal(line) {
  const refused = /^refused: NotModule "(.*)" (.*)$/.exec(line);
  if (refused !== null) {
    return (await isModule(refused[1], refused[2])) ? [`${line}, where Node has a module`] : [];
  }
  const asked = /^refused: (\w+) from "(.*)" for "(.*)"$/.exec(line);
  if (asked === null) {
    return [line];
  }
  const [, kind, referrer, specifier] = asked;
  const answer = nodeAnswers(specifier, ROOT + referrer.slice(1));
  const isRight = kind === "Builtin" ? (answer?.startsWith("node:") ?? false) : answer === null;
  return isRight ? [] : [`${line}, where Node has ${answer}`];
}

const counts = { entries: 0, maps: 0, requests: 0, calls: 0, refusals: {}, differences: 0 };

function told(name, differences) {
  counts.differences += differences.length;
  differences.forEach((difference) => console.log(`${name}: ${difference}`));
}

const served = [];
for (const entry of packages().flatMap(entriesOf)) {
  const { status, line } = link([entry]);
  counts.entries += 1;
  if (status === 0) {
    counts.maps += 1;
    served.push(entry);
    told(entry, await differencesOf([entry], counts));
  } else {
    const kind = line.split(" ")[1];
    counts.refusals[kind] = (counts.refusals[kind] ?? 0) + 1;
    told(entry, await wrongRefusal(line));
  }
}
const { status, line } = link(served);
told("all that have a map", status === 0 ? await differencesOf(served, counts) : [line]);
console.log(`${line}; ${JSON.stringify(counts)}`);
process.exit(counts.differences === 0 ? 0 : 1);
