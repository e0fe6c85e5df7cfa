"""What a generation asks over a site in memory, question by question: a resolver after Node.js's documentation (ECMAScript modules:
resolution algorithm specification; Packages), and after nothing of the program but what docs/DECISIONS.md lists as its own.

Specifiers and targets are texts without escapes; a module's text has declarations `import "..";` and `export ..` alone.
"""
import json
import posixpath
import re

PAGE, CONDITIONS, BUILTIN_NAMES = '/index.html', ('browser', 'import'), ('fs',)
FOLDER, UNDEFINED = object(), object()
MAIN_ENDS, INDEX_FILES = ('', '.js', '.json', '.node', '/index.js', '/index.json', '/index.node'), ('index.js', 'index.json', 'index.node')
FORMATS = {'.mjs': 'module', '.cjs': 'CommonJs', '.json': 'Json', '.node': 'Addon'}
SCHEME = re.compile('[a-z][a-z0-9+.-]*:', re.I)
INVALID_PART = re.compile(r'|\.|\.\.|node_modules', re.I)


class Cause(Exception):
    """Why a request leads nowhere, or a file is no module."""


def standing(site, path):
    return FOLDER if path == '/' or path in site.folders else site.files.get(path)


def upwards(folder):
    while folder != '/':
        yield folder
        folder = posixpath.dirname(folder)
    yield '/'


def url_in(folder, text):
    """the path, with a `/` where only a folder may stand there, and the suffix of a text without escapes"""
    path, suffix = re.match('([^?#]*)(.*)', text, re.DOTALL).groups()
    return posixpath.normpath(posixpath.join(folder, path)) + ('/' if re.search(r'(^|/)\.{0,2}$', path) else ''), suffix


# ---- Node's rules, by their names there. `look` tells what stands at a path

def lookup_package_scope(look, folder):
    for at in upwards(folder):
        if at.endswith('/node_modules'):
            return None
        if isinstance(look(posixpath.join(at, 'package.json')), bytes):
            return at
    return None


def read_package_json(look, folder):
    content = look(posixpath.join(folder, 'package.json'))
    if not isinstance(content, bytes):
        return {}
    try:
        record = json.loads(content)
    except ValueError:
        record = None
    if not isinstance(record, dict):
        raise Cause('InvalidConfig')
    return record


def package_target_resolve(look, folder, target, star, is_imports):
    """a URL, None where the target is null, or UNDEFINED"""
    if isinstance(target, str):
        return text_target(look, folder, target, star, is_imports)
    if isinstance(target, list):
        return list_target(look, folder, target, star, is_imports)
    if isinstance(target, dict):
        if any(re.fullmatch('0|[1-9][0-9]*', key) for key in target):
            raise Cause('InvalidConfig')
        tried = (package_target_resolve(look, folder, value, star, is_imports) for key, value in target.items()
                 if key == 'default' or key in CONDITIONS)
        return next((it for it in tried if it is not UNDEFINED), UNDEFINED)
    if target is not None:
        raise Cause('InvalidTarget')
    return None


def text_target(look, folder, target, star, is_imports):
    text = target if star is None else target.replace('*', star)
    if not target.startswith('./'):
        if is_imports and not target.startswith(('../', '/')) and not SCHEME.match(target):
            return package_resolve(look, folder, text)
        raise Cause('InvalidTarget')
    if any(INVALID_PART.fullmatch(part) for part in re.split(r'[/\\]', target)[1:]):
        raise Cause('InvalidTarget')
    if star is not None and any(INVALID_PART.fullmatch(part) for part in re.split(r'[/\\]', star)):
        raise Cause('InvalidSpecifier')
    return url_in(folder, text)


def list_target(look, folder, items, star, is_imports):
    last = UNDEFINED if items else None
    for item in items:
        try:
            found = package_target_resolve(look, folder, item, star, is_imports)
        except Cause as why:
            if str(why) != 'InvalidTarget':
                raise
            found = why
        if isinstance(found, tuple):
            return found
        last = last if found is UNDEFINED else found
    if isinstance(last, Cause):
        raise last
    return last


def package_imports_exports_resolve(look, folder, members, asked, is_imports):
    if asked in members and '*' not in asked:
        return package_target_resolve(look, folder, members[asked], None, is_imports)
    fits = []
    for key in members:
        base, star, trailer = key.partition('*')
        if star and '*' not in trailer and asked != base and asked.startswith(base) and (
                not trailer or asked.endswith(trailer) and len(asked) >= len(key)):
            fits.append((len(base), len(key), asked[len(base):len(asked) - len(trailer)], members[key]))
    if not fits:
        return UNDEFINED
    *_, star, target = max(fits, key=lambda it: it[:2])
    return package_target_resolve(look, folder, target, star, is_imports)


def package_exports_resolve(look, folder, subpath, exports):
    dotted = {key.startswith('.') for key in exports} if isinstance(exports, dict) else set()
    if len(dotted) == 2:
        raise Cause('InvalidConfig')
    found = UNDEFINED
    if subpath == '.' and isinstance(exports, (str, list, dict)):
        found = package_target_resolve(look, folder, exports.get('.') if True in dotted else exports, None, False)
    elif subpath != '.' and isinstance(exports, dict) and False not in dotted:
        found = package_imports_exports_resolve(look, folder, exports, subpath, False)
    if not isinstance(found, tuple):
        raise Cause('NotExported')
    return found


def package_imports_resolve(look, folder, specifier):
    if specifier == '#' or specifier.startswith('#/') or specifier.endswith('/'):
        raise Cause('InvalidSpecifier')
    scope = lookup_package_scope(look, folder)
    imports = None if scope is None else read_package_json(look, scope).get('imports')
    found = package_imports_exports_resolve(look, scope, imports, specifier, True) if isinstance(imports, dict) else UNDEFINED
    if not isinstance(found, tuple):
        raise Cause('ImportNotDefined')
    return found


def legacy_main_resolve(look, folder, main):
    """the first file that is there of those that this tool tries"""
    for text in [main + end for end in MAIN_ENDS if isinstance(main, str)] + list(INDEX_FILES):
        path, suffix = url_in(folder, './' + text)
        if isinstance(look(path.rstrip('/') or '/'), bytes) and not path.endswith('/'):
            return path, suffix
    raise Cause('NotFound')


def package_resolve(look, folder, specifier):
    if specifier in BUILTIN_NAMES:
        raise Cause('Builtin')
    name = re.match('(@[^/]*/)?[^/]*', specifier).group()
    if specifier.endswith('/') or re.search(r'^$|^\.|[\\%?# ]|^@[^/]*$|(^|/)\.{0,2}(/|$)', name):
        raise Cause('InvalidSpecifier')
    subpath = '.' + specifier[len(name):]
    scope = lookup_package_scope(look, folder)
    record = {} if scope is None else read_package_json(look, scope)
    if record.get('name') == name and record.get('exports') is not None:
        return package_exports_resolve(look, scope, subpath, record['exports'])
    places = (posixpath.join(at, 'node_modules', name) for at in upwards(folder))
    package = next((it for it in places if look(it) is FOLDER), None)
    if package is None:
        raise Cause('NotFound')
    record = read_package_json(look, package)
    if record.get('exports') is not None:
        return package_exports_resolve(look, package, subpath, record['exports'])
    if subpath == '.':
        return legacy_main_resolve(look, package, record.get('main'))
    url = url_in(package, subpath)
    if not url[0].startswith(package + '/'):
        raise Cause('InvalidSpecifier')
    return url


def esm_resolve(look, parent, specifier):
    folder = posixpath.dirname(parent)
    if SCHEME.match(specifier):
        raise Cause('Builtin' if specifier.startswith('node:') else 'ExternalUrl')
    if specifier.startswith(('/', './', '../')):
        url = url_in(folder, specifier)
    else:
        url = (package_imports_resolve if specifier.startswith('#') else package_resolve)(look, folder, specifier)
    found = look(url[0].rstrip('/') or '/')
    if found is FOLDER:
        raise Cause('DirectoryImport')
    if found is None or url[0].endswith('/'):
        raise Cause('NotFound')
    return url


def esm_file_format(look, path):
    if not path.endswith('.js'):
        return FORMATS.get(posixpath.splitext(path)[1], 'Other')
    scope = lookup_package_scope(look, posixpath.dirname(path))
    try:
        kind = None if scope is None else read_package_json(look, scope).get('type')
    except Cause:
        return 'Config'
    return {'module': 'module', 'commonjs': 'CommonJs'}.get(kind if isinstance(kind, str) else None, 'detected')


def specifiers_of(look, path):
    """what a module asks for, whose declarations are all of the two forms of these sites"""
    form = esm_file_format(look, path)
    if form not in ('module', 'detected'):
        raise Cause(form)
    content = look(path)
    if b'\0' in content:
        raise Cause(f'Unreadable at {content.index(0)}')
    asked = re.findall('import "(.*?)";', content.decode())
    if form == 'detected' and not asked and b'export' not in content:
        raise Cause('CommonJs')
    return asked


class Trace:
    """What a generation over a site asks until it ends, where each question looks, and its line without the mappings."""

    def __init__(self, site):
        self.site, self.asked, self.looks, self.is_right = site, [], {}, False
        try:
            self.line = 'ok: {} modules, {} requests'.format(*self.walked())
            self.is_right = True
        except Cause as why:
            self.line = f'refused: {why}'

    def answered(self, rule, *words):
        """what a rule comes to, and why it comes to nothing"""
        looks = self.looks.setdefault((rule, *words), set())
        self.asked.append((rule, *words))
        try:
            return rule(lambda path: looks.add(path) or standing(self.site, path), *words), None
        except Cause as why:
            return None, why

    def walked(self):
        """how many modules it has, and how many requests"""
        waiting, requests = [(PAGE, None)], 0
        for path, suffix in waiting:
            specifiers, why = (self.site.entries, None) if suffix is None else self.answered(specifiers_of, path)
            if why:
                raise Cause(f'NotModule {json.dumps(path + suffix)} {why}')
            for specifier in specifiers:
                target, why = self.answered(esm_resolve, path, specifier)
                if why:
                    raise Cause(f'{why} from {json.dumps(path + (suffix or ""))} for {json.dumps(specifier)}')
                requests += 1
                if target not in waiting:
                    waiting.append(target)
        return len(waiting) - 1, requests

    def fresh_behind(self, before):
        """how many of its questions are fresh behind the trace before"""
        one, other = before.site, self.site
        paths = one.folders | other.folders | set(one.files) | set(other.files)
        differ = {it for it in paths if standing(one, it) != standing(other, it)}
        return sum(it not in before.looks or not differ.isdisjoint(before.looks[it]) for it in self.asked)
