#!/bin/sh
# Whole runs of build/salimgub in folders on disk: the status, the line, and the map where one is written, each typed by
# hand; the digests are those of `openssl dgst -sha384`. Every row that fails is named; the status tells whether all
# passed.
program=$(cd "$(dirname "$0")/.." && pwd)/build/salimgub
kept=$(mktemp -d) || exit 1
trap 'rm -rf "$kept"' EXIT

# That a row failed: also where it is tried behind a pipe, in a shell of its own.
fail() {
    echo "$1"
    : >"$kept/failed"
}

# The text of the project's file with one entry: project ENTRY.
project() {
    cat <<PROJECT
{
  "base": "https://app.test/",
  "page": "/index.html",
  "conditions": [
    "browser",
    "import"
  ],
  "entries": [
    "$1"
  ]
}
PROJECT
}

# Whether the folder $kept/NAME has a map and the project's file with one entry, where the status is 0, and neither
# where it isn't: is_kept NAME ENTRY STATUS.
is_kept() {
    if [ "$3" = 0 ]; then
        [ -e "$kept/$1/importmap.json" ] && project "$2" | diff - "$kept/$1/importmap.project.json"
    else
        [ ! -e "$kept/$1/importmap.json" ] && [ ! -e "$kept/$1/importmap.project.json" ]
    fi
}

# Links ENTRY in the folder $kept/NAME: row NAME ENTRY STATUS LINE [TOLD], and the map on the standard input. But for
# map and project no file may be written, and without a map none. TOLD is what is said on standard error, which is
# nothing without it.
row() {
    cat >"$kept/map"
    before=$(cd "$kept/$1" && find . | sort)
    (cd "$kept/$1" && "$program" link --base https://app.test/ "$2" >"$kept/out" 2>"$kept/told")
    status=$?
    written=/dev/null
    [ ! -e "$kept/$1/importmap.json" ] || written=$kept/$1/importmap.json
    after=$(cd "$kept/$1" && find . ! -path ./importmap.json ! -path ./importmap.project.json | sort)
    if [ "$status" = "$3" ] && echo "$4" | diff - "$kept/out" && diff "$kept/map" "$written" &&
        is_kept "$1" "$2" "$3" &&
        [ "$before" = "$after" ] && printf '%s' "${5:+$5
}" | diff - "$kept/told"; then
        return
    fi
    fail "$1: status $status"
}

mkdir "$kept/smallest" && : >"$kept/smallest/app.mjs"
row smallest ./app.mjs 0 'ok: 1 modules, 1 requests, 0 mappings' <<'MAP'
{
  "imports": {},
  "integrity": {
    "https://app.test/app.mjs": "sha384-OLBgp1GsljhM2TJ+sbHjaiH9txEUvgdDTAzHv2P24donTt6/529l+9Ua0vFImLlb"
  }
}
MAP

mkdir "$kept/pair" && echo 'import "./b.mjs";' >"$kept/pair/app.mjs" && : >"$kept/pair/b.mjs"
row pair ./app.mjs 0 'ok: 2 modules, 2 requests, 0 mappings' <<'MAP'
{
  "imports": {},
  "integrity": {
    "https://app.test/app.mjs": "sha384-CARr8KN4VOyO5/iC6v7LMnOnPYn+q5g05VYptal7pBKkAhn+NTiEUY1BYehfzvj+",
    "https://app.test/b.mjs": "sha384-OLBgp1GsljhM2TJ+sbHjaiH9txEUvgdDTAzHv2P24donTt6/529l+9Ua0vFImLlb"
  }
}
MAP

mkdir "$kept/escaped" && echo 'import "./a%62.mjs";' >"$kept/escaped/app.mjs" && : >"$kept/escaped/ab.mjs"
row escaped ./app.mjs 0 'ok: 2 modules, 2 requests, 1 mappings' <<'MAP'
{
  "imports": {
    "https://app.test/a%62.mjs": "./ab.mjs"
  },
  "integrity": {
    "https://app.test/ab.mjs": "sha384-OLBgp1GsljhM2TJ+sbHjaiH9txEUvgdDTAzHv2P24donTt6/529l+9Ua0vFImLlb",
    "https://app.test/app.mjs": "sha384-RCKpZDrWVkPtSiqtxJIo7E8uYuAPL3252cYMCQ1jvTqlQBGX/5EE0u0gNqpU7rbv"
  }
}
MAP

mkdir "$kept/quotes" && echo "  import './b.mjs'" >"$kept/quotes/app.mjs" && echo 'export {};' >"$kept/quotes/b.mjs"
row quotes ./app.mjs 0 'ok: 2 modules, 2 requests, 0 mappings' <<'MAP'
{
  "imports": {},
  "integrity": {
    "https://app.test/app.mjs": "sha384-UlWUf8rOSuoxcuJB8tHuU8cq2Fb6TRfLU7rI+S+YUQVV4p/2SxSejXFy0iIYp1dX",
    "https://app.test/b.mjs": "sha384-z0dQZuTpVhlJhRpzBVjQTCgdq+BUSh89DMD4c8ea5gn4XTF+416jeLVKPWSl2O8q"
  }
}
MAP

mkdir "$kept/bare"
row bare ui 1 'refused: NotFound from "/index.html" for "ui"' </dev/null

mkdir "$kept/missing" && echo 'import "./q.mjs";' >"$kept/missing/app.mjs"
row missing ./app.mjs 1 'refused: NotFound from "/app.mjs" for "./q.mjs"' </dev/null

# Makes the file $kept/NAME with this text: file NAME TEXT.
file() {
    mkdir -p "$kept/${1%/*}" && printf '%s' "$2" >"$kept/$1"
}

# A package below another one, conditions, a pattern, a main file and a style of the app's own.
file ui/package.json '{"type":"module","dependencies":{"ui":"1.0.0"}}'
file ui/src/main.js 'import { h } from "ui"; import "ui/x/menu"; import "./style.js";'
file ui/src/style.js ''
file ui/node_modules/ui/package.json '{"name":"ui","type":"module","exports":{'\
'".":{"types":"./i.d.ts","browser":"./b.js","default":"./n.js"},"./x/*":"./x/*.js"}}'
file ui/node_modules/ui/b.js 'export { h } from "@ui/core";'
file ui/node_modules/ui/n.js 'export const h = 0;'
file ui/node_modules/ui/x/menu.js 'import { h } from "@ui/core"; export default h;'
file ui/node_modules/ui/node_modules/@ui/core/package.json '{"name":"@ui/core","main":"lib/index.mjs"}'
file ui/node_modules/ui/node_modules/@ui/core/lib/index.mjs 'export const h = 1;'
row ui ./src/main.js 0 'ok: 5 modules, 6 requests, 3 mappings' <<'MAP'
{
  "imports": {
    "@ui/core": "./node_modules/ui/node_modules/@ui/core/lib/index.mjs",
    "ui": "./node_modules/ui/b.js",
    "ui/x/menu": "./node_modules/ui/x/menu.js"
  },
  "integrity": {
    "https://app.test/node_modules/ui/b.js": "sha384-fTcfCsVu7yvt3g9LFfritgiUikMnzZIA/dqPyUjnKoSENf1koQGxmoHfLywoFTKk",
    "https://app.test/node_modules/ui/node_modules/@ui/core/lib/index.mjs": "sha384-+3DuLD1KVPQ/lPGKLn93I26CtkmxsZ+pS5BUSKiE0lPEIIL3vWUWVsHz2RRuZjMi",
    "https://app.test/node_modules/ui/x/menu.js": "sha384-Pjmj++s7Y5Oncr97J9gE44YFFOrmurNsWYdf/c83rf/G+VXf3tloacfn+LWUXLfl",
    "https://app.test/src/main.js": "sha384-YRNCTOcCt/aVJClBCjXNfc7kVQN5YXbHVNVz21nHQnQyDHN3d0RApSqZQvSi2pea",
    "https://app.test/src/style.js": "sha384-OLBgp1GsljhM2TJ+sbHjaiH9txEUvgdDTAzHv2P24donTt6/529l+9Ua0vFImLlb"
  }
}
MAP

# Another site of the same packages.
cp -R "$kept/ui" "$kept/order" && rm -f "$kept/order/importmap.json" "$kept/order/importmap.project.json"

# Runs a command over the linked packages: ui STATUS WORDS.., and what it must say on the standard input.
ui() {
    wanted=$1
    shift
    (cd "$kept/ui" && "$program" "$@" >"$kept/out" </dev/null)
    status=$?
    if [ "$status" = "$wanted" ] && diff - "$kept/out"; then
        return
    fi
    fail "ui: $*: status $status"
}

# That the folder $kept/ui has these files below /out, with their bytes, and no others: copies PATH..
copies() {
    printf '%s\n' "$@" | diff - "$kept/found" || return 1
    for path in "$@"; do
        cmp "$kept/ui/$path" "$kept/ui/out/$path" || return 1
    done
}

# The other commands over these packages: the map is made again, what is loaded is told and copied, and the entry is
# taken out.
mv "$kept/ui/importmap.json" "$kept/uimap"
echo 'ok: 5 modules, 6 requests, 3 mappings' | ui 0 refresh
diff "$kept/uimap" "$kept/ui/importmap.json" || fail "ui: another map"
ui 0 list <<'LINES'
"/src/main.js" 3
"/node_modules/ui/b.js" 1
"/node_modules/ui/x/menu.js" 1
"/src/style.js" 0
"/node_modules/ui/node_modules/@ui/core/lib/index.mjs" 0
LINES
ui 0 why /node_modules/ui/node_modules/@ui/core/lib/index.mjs <<'LINES'
page "/index.html"
asks "./src/main.js" gets "/src/main.js"
asks "ui" gets "/node_modules/ui/b.js"
asks "@ui/core" gets "/node_modules/ui/node_modules/@ui/core/lib/index.mjs"
LINES
echo 'not reached: "/node_modules/ui/n.js"' | ui 10 why /node_modules/ui/n.js
echo 'vendored 8 files' | ui 0 vendor /out
(cd "$kept/ui/out" && find . -type f | sed 's|^\./||' | LC_ALL=C sort) >"$kept/found"
if ! copies node_modules/ui/b.js node_modules/ui/node_modules/@ui/core/lib/index.mjs \
    node_modules/ui/node_modules/@ui/core/package.json node_modules/ui/package.json node_modules/ui/x/menu.js \
    package.json src/main.js src/style.js; then
    fail "ui: copies"
fi
echo 'refused: Occupied "/out"' | ui 1 vendor /out
echo 'ok: 0 modules, 0 requests, 0 mappings' | ui 0 unlink ./src/main.js
if ! printf '{\n  "imports": {}\n}\n' | diff - "$kept/ui/importmap.json" ||
    ! diff - "$kept/ui/importmap.project.json" <<'PROJECT'; then
{
  "base": "https://app.test/",
  "page": "/index.html",
  "conditions": [
    "browser",
    "import"
  ],
  "entries": []
}
PROJECT
    fail "ui: unlinked"
fi

# The first condition of the object that applies, in the order of the object.
file order/node_modules/ui/package.json '{"name":"ui","type":"module","exports":{'\
'".":{"types":"./i.d.ts","default":"./n.js","browser":"./b.js"},"./x/*":"./x/*.js"}}'
row order ./src/main.js 0 'ok: 5 modules, 5 requests, 3 mappings' <<'MAP'
{
  "imports": {
    "@ui/core": "./node_modules/ui/node_modules/@ui/core/lib/index.mjs",
    "ui": "./node_modules/ui/n.js",
    "ui/x/menu": "./node_modules/ui/x/menu.js"
  },
  "integrity": {
    "https://app.test/node_modules/ui/n.js": "sha384-eVYa5/aOGk/vpqRCoKm8w+PIvo26WOQ7DatXj0ggBM+Hrbvb/r11FnPNdzaBL5xX",
    "https://app.test/node_modules/ui/node_modules/@ui/core/lib/index.mjs": "sha384-+3DuLD1KVPQ/lPGKLn93I26CtkmxsZ+pS5BUSKiE0lPEIIL3vWUWVsHz2RRuZjMi",
    "https://app.test/node_modules/ui/x/menu.js": "sha384-Pjmj++s7Y5Oncr97J9gE44YFFOrmurNsWYdf/c83rf/G+VXf3tloacfn+LWUXLfl",
    "https://app.test/src/main.js": "sha384-YRNCTOcCt/aVJClBCjXNfc7kVQN5YXbHVNVz21nHQnQyDHN3d0RApSqZQvSi2pea",
    "https://app.test/src/style.js": "sha384-OLBgp1GsljhM2TJ+sbHjaiH9txEUvgdDTAzHv2P24donTt6/529l+9Ua0vFImLlb"
  }
}
MAP

# Two versions of one package: one stands at the top, and the users of the other one are scoped.
mkdir "$kept/versions"
for side in a b; do
    file "versions/$side/m.mjs" 'import "c";'
    file "versions/$side/node_modules/c/package.json" '{"exports":"./index.mjs"}'
    file "versions/$side/node_modules/c/index.mjs" ''
done
file versions/app.mjs 'import "./a/m.mjs"; import "./b/m.mjs";'
row versions ./app.mjs 0 'ok: 5 modules, 5 requests, 2 mappings' <<'MAP'
{
  "imports": {
    "c": "./a/node_modules/c/index.mjs"
  },
  "scopes": {
    "./b/": {
      "c": "./b/node_modules/c/index.mjs"
    }
  },
  "integrity": {
    "https://app.test/a/m.mjs": "sha384-qruC7+aG5XKl6IkvoF88DVnWrFP02u8KOmb9+fpRn/TPxBSChNrBB11UHLDvQ7SZ",
    "https://app.test/a/node_modules/c/index.mjs": "sha384-OLBgp1GsljhM2TJ+sbHjaiH9txEUvgdDTAzHv2P24donTt6/529l+9Ua0vFImLlb",
    "https://app.test/app.mjs": "sha384-/A+xpvXvObiDjDvSl3Gju723X/VIJDFxW/1O86XYxM9gyvugLoqDSIOI6JeLUsQm",
    "https://app.test/b/m.mjs": "sha384-qruC7+aG5XKl6IkvoF88DVnWrFP02u8KOmb9+fpRn/TPxBSChNrBB11UHLDvQ7SZ",
    "https://app.test/b/node_modules/c/index.mjs": "sha384-OLBgp1GsljhM2TJ+sbHjaiH9txEUvgdDTAzHv2P24donTt6/529l+9Ua0vFImLlb"
  }
}
MAP

# A fallback in `imports`, behind a package whose target is invalid.
file fallback/app.mjs 'import "#d";'
file fallback/package.json '{"imports":{"#d":["dep","./fb.mjs"]}}'
file fallback/node_modules/dep/package.json '{"exports":"../x"}'
file fallback/fb.mjs ''
row fallback ./app.mjs 0 'ok: 2 modules, 2 requests, 1 mappings' <<'MAP'
{
  "imports": {
    "#d": "./fb.mjs"
  },
  "integrity": {
    "https://app.test/app.mjs": "sha384-s6a8r1PXN9L5JpteOj2engtZjWTdrGN1hUb4CBHiDkvlVAo1Ez7u9TTBEMDFTExO",
    "https://app.test/fb.mjs": "sha384-OLBgp1GsljhM2TJ+sbHjaiH9txEUvgdDTAzHv2P24donTt6/529l+9Ua0vFImLlb"
  }
}
MAP

file closed/app.mjs 'import "p/priv/x";'
file closed/node_modules/p/package.json '{"exports":{"./*":"./*.mjs","./priv/*":null}}'
row closed ./app.mjs 1 'refused: NotExported from "/app.mjs" for "p/priv/x"' </dev/null

file common/x.js 'module.exports = 1;'
row common ./x.js 1 'refused: NotModule "/x.js" CommonJs' </dev/null

file data/app.mjs 'import "./data.json";'
file data/data.json '{}'
row data ./app.mjs 1 'refused: NotModule "/data.json" Json' </dev/null

file builtin/app.mjs 'import "node:fs";'
row builtin ./app.mjs 1 'refused: Builtin from "/app.mjs" for "node:fs"' </dev/null

mkdir -p "$kept/package/node_modules/ui" &&
    echo 'import "ui/x.mjs"; import "./node_modules/ui/x.mjs";' >"$kept/package/app.mjs" &&
    echo '{"exports":{"./*":"./*"}}' >"$kept/package/node_modules/ui/package.json" &&
    : >"$kept/package/node_modules/ui/x.mjs"
row package ./app.mjs 0 'ok: 2 modules, 3 requests, 1 mappings' <<'MAP'
{
  "imports": {
    "ui/x.mjs": "./node_modules/ui/x.mjs"
  },
  "integrity": {
    "https://app.test/app.mjs": "sha384-95SHRkT0zBY5QSGZ80yJ4ZVQoL+0gk0JJhCzk9eIeSypT0+t74qdJEsk2P3vrXvd",
    "https://app.test/node_modules/ui/x.mjs": "sha384-OLBgp1GsljhM2TJ+sbHjaiH9txEUvgdDTAzHv2P24donTt6/529l+9Ua0vFImLlb"
  }
}
MAP

mkdir -p "$kept/nearest/lib/node_modules/ui" "$kept/nearest/node_modules/ui" &&
    echo 'import "ui";' >"$kept/nearest/lib/m.mjs" &&
    echo '{"main":"./i.mjs"}' >"$kept/nearest/node_modules/ui/package.json" && : >"$kept/nearest/node_modules/ui/i.mjs"
row nearest ./lib/m.mjs 1 'refused: NotFound from "/lib/m.mjs" for "ui"' </dev/null

mkdir "$kept/unread" && printf 'import "./b.mjs' >"$kept/unread/app.mjs"
row unread ./app.mjs 1 'refused: NotModule "/app.mjs" Unreadable at 7' </dev/null

# Links ENTRIES, a space between each two, in the folder $kept/NAME: at NAME ENTRIES STATUS LINE. What the map says
# isn't told; it is written exactly where the status is 0.
at() {
    rm -f "$kept/$1/importmap.json" "$kept/$1/importmap.project.json"
    (cd "$kept/$1" && "$program" link --base https://app.test/ $2 >"$kept/out")
    status=$?
    written=1
    [ ! -e "$kept/$1/importmap.json" ] || written=0
    if [ "$status" = "$3" ] && echo "$4" | diff - "$kept/out" && { [ "$3" = 0 ]; [ "$?" = "$written" ]; }; then
        return
    fi
    fail "$1: status $status"
}

# As many bytes as a file may have, and one more.
mkdir "$kept/file" && head -c 16777216 /dev/zero | tr '\0' ' ' >"$kept/file/app.mjs"
at file ./app.mjs 0 'ok: 1 modules, 1 requests, 0 mappings'
cp "$kept/file/app.mjs" "$kept/file/more.mjs" && printf ' ' >>"$kept/file/more.mjs"
at file ./more.mjs 3 'limit: file above 16777216'

# Sixteen names of a file with as many bytes as one may have: 268,435,456. One more byte, in a further file, is too
# many.
mkdir "$kept/bytes" && printf ' ' >"$kept/bytes/more.mjs"
entries=
for number in 0 1 2 3 4 5 6 7 8 9 10 11 12 13 14 15; do
    ln "$kept/file/app.mjs" "$kept/bytes/$number.mjs"
    entries="$entries ./$number.mjs"
done
at bytes "$entries" 0 'ok: 16 modules, 16 requests, 0 mappings'
at bytes "$entries ./more.mjs" 3 'limit: bytes above 268435456'

# From a folder 47 below the root, the name of a package is looked for in 48 folders, and its record and its module are
# looked at: 50 looks for each of 7,999 packages. The two modules that ask for them, and the place of a record in each
# of the 48 folders, are 50 more: 400,000. A third entry is one too many.
mkdir "$kept/looks" && python3 - "$kept/looks" <<'TREE'
import os
import sys

top = sys.argv[1]
deep = top + "/a" * 47
statements = [f'import "p{number}";' for number in range(7999)]


def write(path, text):
    with open(path, "w") as file:
        file.write(text)


for number in range(7999):
    package = f"{top}/node_modules/p{number}"
    os.makedirs(package)
    write(package + "/package.json", '{"exports":"./i.mjs"}')
    write(package + "/i.mjs", "")
os.makedirs(deep)
write(deep + "/m0.mjs", "".join(statements[:4000]))
write(deep + "/m1.mjs", "".join(statements[4000:]))
write(top + "/more.mjs", "")
TREE
deep=.$(printf '/a%.0s' $(seq 47))
at looks "$deep/m0.mjs $deep/m1.mjs" 0 'ok: 8001 modules, 8001 requests, 7999 mappings'
at looks "$deep/m0.mjs $deep/m1.mjs ./more.mjs" 3 'limit: looks above 400000'

# A chain of as many modules as there may be, and one more.
mkdir "$kept/chain" && python3 - "$kept/chain" <<'TREE'
import sys

for number in range(20000):
    with open(f"{sys.argv[1]}/m{number}.mjs", "w") as file:
        file.write(f'import "./m{number + 1}.mjs";' if number < 19999 else "")
TREE
at chain ./m0.mjs 0 'ok: 20000 modules, 20000 requests, 0 mappings'
echo 'import "./m20000.mjs";' >"$kept/chain/m19999.mjs" && : >"$kept/chain/m20000.mjs"
at chain ./m0.mjs 3 'limit: modules above 20000'
rm -r "$kept/chain"

# As many bytes as a map may have, and one more. Each of 16,344 modules, which are one file under names of their own, has a
# line of 106 bytes and its query; the four that ask for them have one of 106 bytes, the last line of all has no comma, and
# what stands around them 42 bytes: 42 - 1 + 4 * 106 + 16344 * 106 + 16343 * 4000 + 3935 is 67,108,864.
maps() {
    mkdir -p "$kept/$1" && : >"$kept/$1/x.mjs" && python3 - "$kept/$1" "$2" <<'TREE'
import sys

for hub in range(4):
    with open(f"{sys.argv[1]}/m{hub}.mjs", "w") as file:
        for number in range(hub, 16344, 4):
            length = 4000 if number else int(sys.argv[2])
            file.write(f'import"./x.mjs?{number:0{length}}";')
TREE
}
maps large 3935
at large "./m0.mjs ./m1.mjs ./m2.mjs ./m3.mjs" 0 'ok: 16348 modules, 16348 requests, 0 mappings'
if [ "$(wc -c <"$kept/large/importmap.json")" != 67108864 ]; then
    fail "map: $(wc -c <"$kept/large/importmap.json") bytes"
fi
maps large 3936
at large "./m0.mjs ./m1.mjs ./m2.mjs ./m3.mjs" 3 'limit: map above 67108864'
rm -r "$kept/large"

# As many bytes as a session reads, of which the last ends it, and one more: fifteen files of as many bytes as one may
# have, and one of COUNT. Each of the first fifteen takes 16 bytes for its line and one behind it, 251,658,495 in all;
# with 16,776,940 bytes, their 17 and the four of the end these are 268,435,456: session COUNT STATUS LINE.
session() {
    mkdir -p "$kept/session"
    echo '{"base":"https://app.test/","page":"/index.html","conditions":["browser"],"entries":[]}' \
        >"$kept/session/importmap.project.json"
    { for _ in $(seq 17); do echo 'ok: 0 modules, 0 requests, 0 mappings'; done; echo "$3"; } >"$kept/wanted"
    python3 - "$1" <<'INPUT' | (cd "$kept/session" && "$program" session >"$kept/out")
import sys

for count in [16777216] * 15 + [int(sys.argv[1])]:
    sys.stdout.write(f"put /a {count}\n" + " " * count + "\n")
sys.stdout.write("end\n")
INPUT
    status=$?
    if [ "$status" != "$2" ] || ! diff "$kept/wanted" "$kept/out"; then
        fail "session: status $status"
    fi
}
session 16776940 0 end
session 16776941 3 'limit: session above 268435456'

# Injects into the folder $kept/NAME, with a project of the entry ./app.mjs: page NAME STATUS LINE, and the page as it
# is afterwards on the standard input.
page() {
    cat >"$kept/wanted"
    project ./app.mjs >"$kept/$1/importmap.project.json"
    (cd "$kept/$1" && "$program" inject >"$kept/out")
    status=$?
    left=/dev/null
    [ ! -f "$kept/$1/index.html" ] || left=$kept/$1/index.html
    if [ "$status" = "$2" ] && echo "$3" | diff - "$kept/out" && diff "$kept/wanted" "$left" &&
        [ ! -e "$kept/$1/importmap.json" ]; then
        return
    fi
    fail "$1: status $status"
}

mkdir "$kept/paged" && echo '<head></head>' >"$kept/paged/index.html" && : >"$kept/paged/app.mjs"
page paged 0 'ok: 1 modules, 1 requests, 0 mappings' <<'PAGE'
<head><script type="importmap">{
  "imports": {},
  "integrity": {
    "https://app.test/app.mjs": "sha384-OLBgp1GsljhM2TJ+sbHjaiH9txEUvgdDTAzHv2P24donTt6/529l+9Ua0vFImLlb"
  }
}
</script>
</head>
PAGE

mkdir "$kept/pageless" && : >"$kept/pageless/app.mjs"
page pageless 7 'bad file: page absent' </dev/null

mkdir -p "$kept/folder/index.html" && : >"$kept/folder/app.mjs"
page folder 7 'bad file: page absent' </dev/null

mkdir "$kept/cut" && printf '<head' >"$kept/cut/index.html" && : >"$kept/cut/app.mjs"
page cut 1 'refused: PageUnclear at 0' <"$kept/cut/index.html"

# Checks the map of the folder $kept/NAME, with a project of the entry ./app.mjs: checked NAME STATUS [--strict], and the
# lines on the standard input. Nothing may be written.
checked() {
    cat >"$kept/wanted"
    project ./app.mjs >"$kept/$1/importmap.project.json"
    before=$(cd "$kept/$1" && find . | sort)
    (cd "$kept/$1" && "$program" check $3 >"$kept/out")
    status=$?
    after=$(cd "$kept/$1" && find . | sort)
    if [ "$status" = "$2" ] && diff "$kept/wanted" "$kept/out" && [ "$before" = "$after" ]; then
        return
    fi
    fail "$1: status $status"
}

mkdir "$kept/mapless" && echo 'import "./q.mjs";' >"$kept/mapless/app.mjs"
echo 'bad file: map absent' | checked mapless 7

mkdir -p "$kept/mapfolder/importmap.json" && : >"$kept/mapfolder/app.mjs"
echo 'bad file: map absent' | checked mapfolder 7

mkdir "$kept/largemap" && : >"$kept/largemap/app.mjs" && truncate -s 67108865 "$kept/largemap/importmap.json"
echo 'limit: file above 67108864' | checked largemap 3
truncate -s 67108864 "$kept/largemap/importmap.json"
echo 'bad file: map at 0' | checked largemap 7
rm -f "$kept/largemap/importmap.json"

mkdir "$kept/wrongmap" && echo 'import "./b.mjs?x";' >"$kept/wrongmap/app.mjs" && : >"$kept/wrongmap/b.mjs" &&
    echo '{"imports":{"/b.mjs?x":"/app.mjs","/b.mjs":"/app.mjs"}}' >"$kept/wrongmap/importmap.json"
checked wrongmap 6 <<'LINES'
differs: from "/app.mjs" for "./b.mjs?x" wants "https://app.test/b.mjs?x" gets "https://app.test/app.mjs"
1 differences
LINES

# The digests of a map aren't compared.
mkdir "$kept/otherdigest" && : >"$kept/otherdigest/app.mjs" &&
    echo '{"integrity":{"/app.mjs":"sha384-another","/b.mjs":"sha384-another"}}' >"$kept/otherdigest/importmap.json"
echo 'ok: 1 needs served' | checked otherdigest 0
echo 'ok: 1 needs served' | checked otherdigest 0 --strict

# Of modules that the statement grammar doesn't match a strict check alone says something, behind the needs that aren't
# served: where the second number stands, and the length of a text in which more should follow.
mkdir "$kept/unmatched" && echo 'import "./b.mjs?x"; let a = 1 2;' >"$kept/unmatched/app.mjs" &&
    printf 'let b =' >"$kept/unmatched/b.mjs" &&
    echo '{"imports":{"/b.mjs?x":"/app.mjs"}}' >"$kept/unmatched/importmap.json"
checked unmatched 6 --strict <<'LINES'
differs: from "/app.mjs" for "./b.mjs?x" wants "https://app.test/b.mjs?x" gets "https://app.test/app.mjs"
strict: "/app.mjs" Syntax at 30
strict: "/b.mjs?x" Syntax at 7
3 differences
LINES
checked unmatched 6 <<'LINES'
differs: from "/app.mjs" for "./b.mjs?x" wants "https://app.test/b.mjs?x" gets "https://app.test/app.mjs"
1 differences
LINES

# A statement, an assignment, 997 operands below an operator and one without are as many forms as may be open in one
# another. With one more the command is refused, whatever needs aren't served; a check that isn't strict counts none. A
# place before, at which the grammar can't go on, is told instead.
mkdir "$kept/nested" && { printf '!%.0s' $(seq 997) && echo 'a;'; } >"$kept/nested/app.mjs" &&
    echo '{}' >"$kept/nested/importmap.json"
echo 'ok: 1 needs served' | checked nested 0 --strict
{ printf '!%.0s' $(seq 998) && echo 'a; import "./b.mjs";'; } >"$kept/nested/app.mjs" && : >"$kept/nested/b.mjs" &&
    echo '{"imports":{"/b.mjs":"/app.mjs"}}' >"$kept/nested/importmap.json"
echo 'limit: nesting above 1000' | checked nested 3 --strict
checked nested 6 <<'LINES'
differs: from "/app.mjs" for "./b.mjs" wants "https://app.test/b.mjs" gets "https://app.test/app.mjs"
1 differences
LINES
{ printf 'let 1; ' && printf '!%.0s' $(seq 998) && echo 'a;'; } >"$kept/nested/app.mjs"
checked nested 6 --strict <<'LINES'
strict: "/app.mjs" Syntax at 4
1 differences
LINES

# What the disk doesn't give is told on standard error.
mkdir "$kept/linked" && echo 'import "./b.mjs";' >"$kept/linked/app.mjs" && ln -s app.mjs "$kept/linked/b.mjs"
row linked ./app.mjs 4 'fault: read' 'salimgub: ./b.mjs: symbolic link' </dev/null

mkdir "$kept/special" && echo 'import "./b.mjs";' >"$kept/special/app.mjs" && mkfifo "$kept/special/b.mjs"
row special ./app.mjs 4 'fault: read' 'salimgub: ./b.mjs: special file' </dev/null

# Runs a command in the folder $kept/NAME: says NAME STATUS LINE TOLD WORDS... No file may be written or changed.
says() {
    name=$1 wanted=$2 line=$3 told=$4
    shift 4
    rm -rf "$kept/before" && cp -R "$kept/$name" "$kept/before"
    (cd "$kept/$name" && "$program" "$@" >"$kept/out" 2>"$kept/told" </dev/null)
    status=$?
    if [ "$status" = "$wanted" ] && echo "$line" | diff - "$kept/out" && diff -r "$kept/before" "$kept/$name" &&
        printf '%s' "${told:+$told
}" | diff - "$kept/told"; then
        return
    fi
    fail "$name: $*: status $status"
}

# Words and projects that are refused.
file plain/app.mjs ''
says plain 2 'words: no base' '' link ./app.mjs
says plain 2 'words: BadBase "ftp://h/"' '' link --base ftp://h/ x
says plain 2 'words: BadPath "/"' '' link --page / --base https://app.test/ x
says plain 2 'words: BadConditions "a,a"' '' link --conditions=a,a x
says plain 2 'words: not plain' 'salimgub: an option stands behind an entry: "--base"' link ./app.mjs --base https://app.test/
says plain 2 'words: not plain' 'salimgub: an entry is empty: ""' link ./app.mjs ''
says plain 2 'words: not plain' 'salimgub: an entry begins with a hyphen: "-"' link -
says plain 2 'words: not plain' 'salimgub: this word has no meaning: "--"' link -- x
says plain 2 'words: not plain' 'salimgub: the value of an option is empty: "--base="' link --base= x
says plain 2 'words: not plain' 'salimgub: the value of an option begins with a hyphen: "--page=-p"' link --page=-p x
says plain 2 'words: not plain' 'salimgub: no number from 1 to 2000 without leading zeros: "007"' measure 007
says plain 0 'measure 3: 8 modules, 12 requests, 5 mappings' '' measure 3
says plain 2 'words: BadPath "app.mjs"' '' why app.mjs
says plain 2 'words: BadPath "/"' '' vendor /
for command in refresh check inject list session 'why /app.mjs' 'vendor /out' 'unlink x'; do
    says plain 7 'bad file: project absent' '' $command
done

file cut/importmap.project.json '{"base":"https://app.test/"'
says cut 7 'bad file: project at 27' '' refresh
file wide/importmap.project.json '{"base":"https://app.test/","page":"/index.html","conditions":[],"entries":[],"x":0}'
says wide 7 'bad file: project at 0' '' check

# A project's file that can't be read, and one that can't be written: then the map alone is.
file linkedproject/app.mjs '' && ln -s app.mjs "$kept/linkedproject/importmap.project.json"
says linkedproject 4 'fault: read' 'salimgub: ./importmap.project.json: symbolic link' refresh

mkdir -p "$kept/heldproject/importmap.project.json" && file heldproject/app.mjs ''
(cd "$kept/heldproject" && "$program" link --base https://app.test/ ./app.mjs >"$kept/out" 2>"$kept/told")
if [ $? != 5 ] || ! echo 'fault: write' | diff - "$kept/out" || [ ! -f "$kept/heldproject/importmap.json" ] ||
    [ "$(wc -l <"$kept/told")" != 1 ]; then
    fail "heldproject"
fi

# The page and the conditions of a project.
file start/index.html '<head'
file start/p/app.mjs 'import "c";' && echo '<head></head>' >"$kept/start/p/start.html"
file start/node_modules/c/package.json '{"exports":{"browser":"./b.mjs","node":"./n.mjs"}}'
file start/node_modules/c/b.mjs ''
file start/node_modules/c/n.mjs ''
(cd "$kept/start" &&
    "$program" link --base https://app.test/ --page /p/start.html --conditions=node,import ./app.mjs &&
    "$program" inject) >"$kept/out"
if [ $? != 0 ] ||
    ! printf '%s\n' 'ok: 2 modules, 2 requests, 1 mappings' 'ok: 2 modules, 2 requests, 1 mappings' |
        diff - "$kept/out" ||
    ! diff "$kept/start/importmap.project.json" - <<'PROJECT' || ! diff "$kept/start/p/start.html" - <<'PAGE'; then
{
  "base": "https://app.test/",
  "page": "/p/start.html",
  "conditions": [
    "node",
    "import"
  ],
  "entries": [
    "./app.mjs"
  ]
}
PROJECT
<head><script type="importmap">{
  "imports": {
    "c": "https://app.test/node_modules/c/n.mjs"
  },
  "integrity": {
    "https://app.test/node_modules/c/n.mjs": "sha384-OLBgp1GsljhM2TJ+sbHjaiH9txEUvgdDTAzHv2P24donTt6/529l+9Ua0vFImLlb",
    "https://app.test/p/app.mjs": "sha384-qruC7+aG5XKl6IkvoF88DVnWrFP02u8KOmb9+fpRn/TPxBSChNrBB11UHLDvQ7SZ"
  }
}
</script>
</head>
PAGE
    fail "start"
fi

[ ! -e "$kept/failed" ]
