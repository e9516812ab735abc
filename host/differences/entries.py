"""The entries of docs/DIFFERENCES.md: inputs, questions, what the crate answers, what TypeScript 4.8.4 answers.

An entry has a number, a topic and one or more cases. A case is a list of records and a list of questions. A question is
(line, crate's answer, TypeScript's question or None, TypeScript's answer or None). The fields of C and T are parted
by tabs, as the program wants them. The lines of an answer are parted by ` | `. Records are numbered from 0 in the order they stand.
"""
P, D, R = '/p/tsconfig.json', '/b/base.json', '/tsconfig.json'
ENTRIES = []


def entry(number, group, topic, *cases):
    ENTRIES.append(dict(number=number, group=group, topic=topic, cases=cases))


def case(records, *questions, disk=None, stores=()):
    """`disk`: sources that exist for TypeScript. `stores`: what one resolver for the whole walk answers, by question."""
    return dict(records=records, questions=questions, disk=disk or {}, stores=stores)


def rec(path, **fields):
    return path, fields


def p(**fields):
    return rec(P, **fields)


def d(**fields):
    return rec(D, **fields)


def reach(path=P):
    """A config at the root that claims nothing itself and leads to P: for files outside P's folder."""
    return rec(R, files=[], include=[], references=[path])


def O(path, crate, typescript=None, of=P):
    """Does the config's list hold the file?"""
    return 'O ' + path, crate, ('list', of, path) if typescript else None, typescript


def S(path, crate, typescript):
    """Which project does the editor's server open the file in?"""
    return 'O ' + path, crate, ('server', path), typescript


def C(name, crate, typescript=None, of=P):
    return 'C %s\t%s' % (of, name), crate, ('candidates', of, name) if typescript is not None else None, typescript


def T(folder, name, crate, typescript=None, of=P):
    return 'T %s\t%s\t%s' % (of, folder, name), crate, ('tries', of, folder, name) if typescript is not None else None, typescript


def B(crate, typescript=None, of=P, ask='fields'):
    return 'B ' + of, crate, (ask, of) if typescript is not None else None, typescript


IN, OUT = 'in', 'out'
MINE, NONE = 'owner 0 0', 'owner none'

# ---------------------------------------------------------------- claims
entry('D1', 'claims', 'inherited `include`',
      case([p(extends=[D]), d(include=['src']), reach()], O('/b/src/x.ts', NONE, IN), O('/p/src/x.ts', MINE, OUT)))
entry('D2', 'claims', 'inherited `exclude`, `files`',
      case([p(extends=[D]), d(exclude=['src'])], O('/p/src/x.ts', NONE, IN)),
      case([p(extends=[D]), d(files=['x.ts']), reach()], O('/b/x.ts', NONE, IN), O('/p/x.ts', MINE, OUT)))
entry('D3', 'claims', 'package folders, no `exclude`',
      case([p()], O('/p/bower_components/x.ts', MINE, OUT), O('/p/jspm_packages/x.ts', MINE, OUT)))
entry('D4', 'claims', 'package folders, deeper', case([p()], O('/p/s/bower_components/x.ts', MINE, OUT)))
entry('D5', 'claims', 'package folders, own `exclude`', case([p(exclude=[])], O('/p/bower_components/x.ts', MINE, OUT)))
entry('D6', 'claims', 'package folder named in `include`', case([p(include=['bower_components'])], O('/p/bower_components/x.ts', MINE, IN)))
entry('D7', 'claims', '`outDir`, no `exclude`', case([p(outDir='out')], O('/p/out/x.ts', MINE, OUT)))
entry('D8', 'claims', 'inherited `outDir`', case([p(extends=[D]), d(outDir='/p/out')], O('/p/out/x.ts', MINE, IN)))
entry('D9', 'claims', '`declarationDir`, no `exclude`', case([p(declarationDir='types')], O('/p/types/x.ts', MINE, OUT)))
entry('D10', 'claims', '`outDir` with a star', case([p(outDir='o*t')], O('/p/out/x.ts', MINE, OUT)))
entry('D11', 'claims', 'a leading dot',
      case([p()], O('/p/.h/x.ts', MINE, OUT), O('/p/.x.ts', MINE, OUT)),
      case([p(include=['src'])], O('/p/src/.h/x.ts', MINE, OUT)),
      case([p(include=['.h/**/*', '.*/*'])], O('/p/.h/x.ts', MINE, IN)))
entry('D12', 'claims', '`include` ending in `**`',
      case([p(include=['**'])], O('/p/x.ts', MINE, OUT), B('built 0 0 | include=/p/** | base=/p', 'TS5010')),
      case([p(include=['src/**'])], O('/p/src/x.ts', MINE, OUT)),
      case([p(exclude=['src/**'])], O('/p/src/x.ts', NONE, OUT)))
entry('D13', 'claims', '`..` after `**`',
      case([p(include=['**/../x.ts'])], O('/p/x.ts', MINE, OUT), B('built 0 0 | include=/p/x.ts | base=/p', 'TS5065')))
entry('D14', 'claims', 'an `exclude` that matches a folder',
      case([p(exclude=['*'])], O('/p/s/x.ts', MINE, OUT)),
      case([p(exclude=['s*'])], O('/p/src/x.ts', MINE, OUT)),
      case([p(exclude=['src/*'])], O('/p/src/a/x.ts', MINE, OUT)),
      case([p(exclude=['src.d'])], O('/p/src.d/x.ts', MINE, OUT)),
      case([p(include=['.h/x.ts'], exclude=['.h'])], O('/p/.h/x.ts', MINE, OUT)),
      case([p(exclude=['src'])], O('/p/src/a/x.ts', NONE, OUT)),
      case([p(exclude=['**/src'])], O('/p/a/src/b/x.ts', NONE, OUT)))
entry('D15', 'claims', 'extension test on `exclude`',
      case([p(include=['**/*.json'], exclude=['src'], resolveJsonModule=True)], O('/p/src/x.json', MINE, OUT)))
entry('D16', 'claims', 'extensions unknown to TypeScript',
      case([p(include=['**/*.vue'])], O('/p/x.vue', MINE, OUT)), case([p(include=['*.TS'])], O('/p/x.TS', MINE, OUT)))
entry('D17', 'claims', '`.json` without `resolveJsonModule`',
      case([p(include=['*.json'])], O('/p/x.json', MINE, OUT)),
      case([p(include=['*.json'], resolveJsonModule=True)], O('/p/x.json', MINE, IN)))
entry('D18', 'claims', '`checkJs` without `allowJs`',
      case([p(checkJs=True)], O('/p/x.js', NONE, IN)), case([p(checkJs=True, allowJs=False)], O('/p/x.js', NONE, OUT)))
entry('D19', 'claims', '`.min.js`',
      case([p(allowJs=True)], O('/p/x.min.js', MINE, OUT)), case([p(allowJs=True, include=['*.min.js'])], O('/p/x.min.js', MINE, IN)))
entry('D20', 'claims', 'a file called `.ts`',
      case([p(include=['.ts'])], O('/p/.ts', NONE, IN)), case([p(include=['**/*.ts'])], O('/p/a/.ts', NONE, IN)))
entry('D21', 'claims', 'an empty item',
      case([p(include=['']), reach()], O('/p/x.ts', MINE, OUT), O('/q/x.ts', 'owner 1 0', OUT)),
      case([p(extends=[D]), d(include=['']), reach()], O('/p/x.ts', MINE, OUT), O('/b/x.ts', 'owner 2 0', IN)),
      case([p(exclude=[''])], O('/p/x.ts', NONE, IN)))
entry('D22', 'claims', 'an absolute pattern that is not normal',
      case([p(include=['/p/./src'])], O('/p/src/x.ts', NONE, IN)),
      case([p(include=['/p/q/../src'])], O('/p/src/x.ts', NONE, IN)),
      case([p(include=['/p/*/'])], O('/p/x.ts', NONE, IN)),
      case([p(include=['/p/src.d/'])], O('/p/src.d/x.ts', MINE, OUT)))
entry('D23', 'claims', 'an absolute `files` item with `..`', case([p(files=['/a/../p/k.ts'])], O('/p/k.ts', NONE, IN)))
entry('D24', 'claims', 'two leading slashes', case([p(files=['//p/k.ts'])], O('/p/k.ts', MINE, OUT)))
entry('D25', 'claims', 'a wildcard in the first component',
      case([p(include=['/*/x.ts']), reach()], O('/q/x.ts', 'owner 1 0', OUT)),
      case([p(include=['../**/*']), reach()], O('/q/x.ts', 'owner 1 0', OUT)))
entry('D26', 'claims', 'a path inside `node_modules`',
      case([p(files=['node_modules/m/x.ts'])], O('/p/node_modules/m/x.ts', NONE, IN), S('/p/node_modules/m/x.ts', NONE, 'no config')))
entry('D27', 'claims', 'a file reached by an import',
      case([p(files=['a.ts'])], S('/p/b.ts', NONE, P), disk={'/p/a.ts': 'import "./b";', '/p/b.ts': 'export {};'}),
      case([p(exclude=['b.ts'])], S('/p/b.ts', NONE, P), disk={'/p/a.ts': 'import "./b";', '/p/b.ts': 'export {};'}))

# ---------------------------------------------------------------- candidates
entry('D28', 'candidates', 'a dot-name that is not relative',
      case([p(paths=[('*', ['src/*'])])], C('.x/y', 'candidates 0', '/p/src/.x/y'), C('...', 'candidates 0', '/p/src/...')))
entry('D29', 'candidates', 'a key with two stars',
      case([p(paths=[('@/*', ['./s/*']), ('@/a*b*', ['./t/*'])])], C('@/axb*', 'candidates 1 | /p/t/x', '/p/s/axb*'),
           B('built 0 0 | base=/p | key=@/* | target=/p/s/* | key=@/a*b* | target=/p/t/*', 'TS5061', ask='errors')))
entry('D30', 'candidates', 'a name equal to a key with a star',
      case([p(paths=[('abc*', ['v/*']), ('abc*d', ['t'])])], C('abc*d', 'candidates 1 | /p/t', '/p/v/*d')))
entry('D31', 'candidates', 'an empty key', case([p(paths=[('', ['x']), ('*', ['y'])])], C('', 'candidates 1 | /p/x', 'none')))
entry('D32', 'candidates', 'a star that stands for nothing', case([p(paths=[('@/*', ['src/*'])])], C('@/', 'candidates 1 | /p/src/', '/p/src/*')))
entry('D33', 'candidates', '`$` in the star\'s text',
      case([p(paths=[('@/*', ['src/*'])])], C('@/$&', 'candidates 1 | /p/src/$&', '/p/src/*'), C('@/$$x', 'candidates 1 | /p/src/$$x', '/p/src/$x')))
entry('D34', 'candidates', 'text after the star is filled',
      case([p(paths=[('@/*', ['src/*'])])], C('@/../x', 'candidates 1 | /p/src/../x', '/p/x'), C('@/a//b', 'candidates 1 | /p/src/a//b', '/p/src/a/b')))
entry('D35', 'candidates', '`..` after the star of a target', case([p(paths=[('a*', ['*/../z'])])], C('ab/c', 'candidates 1 | /p/z', '/p/b/z')))
entry('D36', 'candidates', 'a target that is not normal',
      case([p(paths=[('a', ['/u/../v']), ('b', ['t/'])])], C('a', 'candidates 1 | /u/../v', '/v'), C('b', 'candidates 1 | /p/t', '/p/t/')))
entry('D37', 'candidates', 'an empty target', case([p(paths=[('a', [''])])], C('a', 'candidates 1 | ', '/p')))
entry('D38', 'candidates', 'a key without targets',
      case([p(baseUrl='.', paths=[('a', [])])], C('a', 'candidates 1 | /p/a', 'none'),
           B('built 0 0 | baseUrl=/p | base=/p | key=a', 'TS5066', ask='errors')),
      case([p(baseUrl='.', paths=[('a*', [])])], C('ab', 'candidates 1 | /p/ab', 'none')))
entry('D39', 'candidates', 'relative and rooted names',
      case([p(baseUrl='.')], C('./x', 'candidates 1 | /p/x', 'none'), C('/x', 'candidates 1 | /x', 'none')))
entry('D40', 'candidates', 'an empty `baseUrl`',
      case([p(baseUrl='', paths=[('a', ['x'])])], C('x', 'candidates 1 | x', '/p/x'), C('a', 'candidates 1 | x', '/p/x')))
entry('D41', 'candidates', 'an empty name', case([p(baseUrl='.')], C('', 'candidates 1 | ', '/p')))
entry('D42', 'candidates', 'a `baseUrl` that is not normal', case([p(baseUrl='/u/../v')], C('x', 'candidates 1 | /u/../v/x', '/v/x')))
entry('D43', 'candidates', 'a final slash of the name', case([p(baseUrl='.')], C('lib/', 'candidates 1 | /p/lib', '/p/lib/')))
entry('D44', 'candidates', 'a target without `./`, no `baseUrl`',
      case([p(paths=[('@f/*', ['filt/*'])])], C('@f/band', 'candidates 1 | /p/filt/band', '/p/filt/band'),
           B('built 0 0 | base=/p | key=@f/* | target=/p/filt/*', 'TS5090', ask='errors')))

# ---------------------------------------------------------------- tries
SG = dict(rootDirs=['src', 'gen'])
entry('D45', 'tries', '`baseUrl` after a mapping',
      case([p(baseUrl='.', paths=[('a', ['x'])])], T('/p', 'a', 'tries 2 | /p/x | /p/a', '/p/x')))
entry('D46', 'tries', 'a rooted name',
      case([p(**SG)], T('/p/src', '/p/src/x', 'tries 0', '/p/src/x /p/gen/x')), case([p(baseUrl='.')], T('/p', '/x', 'tries 1 | /x', 'none')))
entry('D47', 'tries', 'a dot-name that is not relative',
      case([p(baseUrl='.', **SG)], T('/p/src', '.x', 'tries 2 | /p/src/.x | /p/gen/.x', '/p/.x')))
entry('D48', 'tries', 'the root dir itself',
      case([p(**SG)], T('/p/src', '.', 'tries 2 | /p/src | ', 'none'), T('/p/src/a', '..', 'tries 2 | /p/src | ', 'none')))
entry('D49', 'tries', 'a final slash of the name',
      case([p(**SG)], T('/p/src', './', 'tries 2 | /p/src | ', '/p/src/ /p/gen'), T('/p/src', './x/', 'tries 2 | /p/src/x | /p/gen/x', '/p/src/x/ /p/gen/x/')))
entry('D50', 'tries', 'a root dir that is not normal', case([p(rootDirs=['/p/../q', '/r'])], T('/q', './x', 'tries 0', '/q/x /r/x')))
entry('D51', 'tries', 'an empty root dir',
      case([p(rootDirs=['', '/q'])], T('/q', './x', 'tries 2 | /q/x | x', '/q/x /p/x'), T('/z', './x', 'tries 2 | /z/x | /z/x', 'none')))
entry('D52', 'tries', 'asking from `node_modules`', case([p(paths=[('a', ['x'])])], T('/p/node_modules/m', 'a', 'tries 0', '/p/x')))

# ---------------------------------------------------------------- merge
entry('D53', 'merge', 'inherited `baseUrl` as printed',
      case([p(extends=[D]), d(baseUrl='u')], B('built 0 1 | baseUrl=/p/u | base=/b/u', 'baseUrl="/b/u"'), C('x', 'candidates 1 | /b/u/x', '/b/u/x')))
entry('D54', 'merge', 'empty path values',
      case([p(outDir='', rootDirs=[''])], B('built 0 0 | base=/p | rootDir= | outDir=', 'rootDirs=["/p"] outDir="/p"')))
entry('D55', 'merge', 'path values that are not normal',
      case([p(outDir='/u/../v/', rootDirs=['/p/src/'])], B('built 0 0 | base=/p | rootDir=/p/src/ | outDir=/u/../v/', 'rootDirs=["/p/src"] outDir="/v"')))
entry('D56', 'merge', 'a value the option does not know',
      case([p(extends=[D], target='nope'), d(target='es5')], B('built 0 1 | base=/b | text 5=nope', 'TS6046')))
entry('D57', 'merge', 'keys that look like integers',
      case([p(paths=[('b', ['./b']), ('1', ['./1'])])], B('built 0 0 | base=/p | key=b | target=/p/b | key=1 | target=/p/1', 'paths={"1":["./1"],"b":["./b"]}')))
entry('D58', 'merge', 'a config called `jsconfig.json`',
      case([rec('/p/jsconfig.json')], B('built 0 0 | base=/p', 'allowJs=true', of='/p/jsconfig.json')))

entry('D59', 'merge', 'the base where nothing names one', case([p(extends=[D]), d()], B('built 0 1 | base=/b', ''), C('x', 'candidates 0', 'none')))

# ---------------------------------------------------------------- loading
entry('D60', 'loading', '`extends` names a folder',
      case([p(extends=['./d']), rec('/p/d/tsconfig.json', strict=True)], B('built 0 1 | base=/p/d | flag 2=1', 'TS6053')))
entry('D61', 'loading', 'a folder and a `.json` of one name',
      case([p(extends=['./d']), rec('/p/d/tsconfig.json', strict=True), rec('/p/d.json', strict=False)],
           B('built 0 1 | base=/p/d | flag 2=1', 'strict=false')))
entry('D62', 'loading', 'a folder hides the `.json`',
      case([p(extends=['./d']), rec('/p/d/x.json'), rec('/p/d.json', strict=True)], B('refused 8 0', 'strict=true')))
entry('D63', 'loading', '`.json` appended to a name that ends in it',
      case([p(extends=['./d.json']), rec('/p/d.json.json', strict=True)], B('built 0 1 | base=/p | flag 2=1', 'TS5083')))
entry('D64', 'loading', '`extends` of a dot-name',
      case([p(extends=['.x']), rec('/p/.x.json', strict=True)], B('built 0 1 | base=/p | flag 2=1', 'TS6053')))
entry('D65', 'loading', 'a missing parent', case([p(extends=['./d'], strict=True)], B('refused 8 0', 'strict=true TS6053')))
entry('D66', 'loading', 'a circle of parents',
      case([p(extends=['./b'], strict=True), rec('/p/b.json', extends=['./tsconfig.json'], allowJs=True)], B('refused 9 0', 'strict=true allowJs=true TS18000')))
entry('D67', 'loading', 'an empty `extends`', case([p(extends=[''], strict=True)], B('refused 11 0', 'strict=true TS6053')))
entry('D68', 'loading', 'a reference without `.json`',
      case([p(references=['./r']), rec('/p/r.json', include=['src'])], B('built 0 0 | base=/p | reference=./r', '/p/r/tsconfig.json', ask='reference'),
           S('/p/src/x.ts', 'owner 0 1', P)),
      case([p(references=['./conf']), rec('/p/conf')], B('built 0 0 | base=/p | reference=./conf', '/p/conf/tsconfig.json', ask='reference')))
entry('D69', 'loading', 'a missing reference', case([p(references=['./r'])], B('refused 8 0', '/p/r/tsconfig.json', ask='reference'),
           S('/p/x.ts', 'refused 8 0', P), C('x', 'refused 8 0', 'none'), T('/p', 'x', 'refused 8 0', 'none')))
entry('D70', 'loading', 'a reference to itself', case([p(references=['.'])], B('refused 10 0', P, ask='reference'), S('/p/x.ts', 'refused 10 0', P)))
entry('D71', 'loading', 'an empty reference',
      case([rec('/p/a.json', references=['']), p()], B('refused 8 0', P, of='/p/a.json', ask='reference')))

# ---------------------------------------------------------------- owner
SOLUTION = dict(files=[], include=[])
entry('D72', 'owner', 'the nearest config does not claim',
      case([p(), rec('/p/a/tsconfig.json', include=['src'])], S('/p/a/x.ts', MINE, 'no config')))
entry('D73', 'owner', 'a reference of a reference',
      case([p(references=['./r.json'], **SOLUTION), rec('/p/r.json', references=['./s.json'], **SOLUTION), rec('/p/s.json', include=['src'])],
           S('/p/src/x.ts', NONE, '/p/s.json')))
entry('D74', 'owner', 'two references claim',
      case([p(files=[], references=['./r.json', './s.json']), rec('/p/r.json', include=['src']), rec('/p/s.json', include=['src'])],
           S('/p/src/x.ts', 'owner 0 1', '/p/s.json')))
entry('D75', 'owner', 'a fault in the config or in a reference',
      case([p(extends=['./nope'])], S('/p/x.ts', 'refused 8 0', P)), case([p(references=['./nope'])], S('/p/x.ts', 'refused 8 0', P)))
entry('D76', 'owner', 'a config inside `node_modules`',
      case([rec('/p/node_modules/m/tsconfig.json')], S('/p/node_modules/m/x.ts', NONE, '/p/node_modules/m/tsconfig.json')))
entry('D77', 'owner', '`jsconfig.json`',
      case([rec('/p/jsconfig.json')], S('/p/x.js', NONE, '/p/jsconfig.json')),
      case([rec('/p/jsconfig.json'), rec(R, allowJs=True)], S('/p/x.js', 'owner 1 1', '/p/jsconfig.json')))
entry('D78', 'owner', 'one stem, several extensions',
      case([p()], S('/p/x.d.ts', MINE, 'no config'), disk={'/p/x.ts': ''}),
      case([p(allowJs=True)], S('/p/x.js', MINE, 'no config'), disk={'/p/x.ts': ''}))
entry('D79', 'owner', 'files outside the config\'s own folder',
      case([p(include=['../shared'])], O('/shared/x.ts', NONE, IN), S('/shared/x.ts', NONE, 'no config')))

# ---------------------------------------------------------------- later versions (TypeScript's side not run)
entry('D80', 'later', '`extends` as a list',
      case([p(extends=[D, '/c/base.json']), d(strict=True, allowJs=True), rec('/c/base.json', strict=False)],
           B('built 0 2 | base=/b | flag 2=0 | flag 8=1')))
entry('D81', 'later', 'a fault in one entry of a list',
      case([p(extends=['./nope', D]), d(strict=True)], B('refused 8 0')), case([p(extends=['', D]), d(strict=True)], B('refused 11 0')),
      case([p(extends=['.', D]), d(strict=True)], B('refused 9 0')))
entry('D82', 'later', '`${configDir}`, which folder',
      case([p(extends=[D]), d(include=['${configDir}/src'], outDir='${configDir}/out', paths=[('@/*', ['${configDir}/src/*'])])],
           B('built 0 1 | include=/p/src | base=/b | key=@/* | target=/p/src/* | outDir=/p/out')))
entry('D83', 'later', '`${configDir}`, the text',
      case([p(include=['${configDir}/../s'], outDir='${configDir}'), reach()], B('built 0 0 | include=/p/../s | base=/p | outDir=/p/'), O('/s/x.ts', NONE)),
      case([p(rootDirs=['${configDir}/../g', '${configDir}'])], T('/g', './x', 'tries 0')))
entry('D84', 'later', '`${configDir}` in `references`', case([p(references=['${configDir}/r.json']), rec('/p/r.json')], B('refused 8 0')))
entry('D85', 'later', '`${CONFIGDIR}`', case([p(outDir='${CONFIGDIR}/out')], B('built 0 0 | base=/p | outDir=/p/${CONFIGDIR}/out')))
entry('D86', 'later', '`outDir` and `declarationDir` of the merged options',
      case([p(extends=[D]), d(outDir='/p/out', declarationDir='/p/types')], O('/p/out/x.ts', MINE), O('/p/types/x.ts', MINE)))
entry('D87', 'later', 'listed files that do not exist', case([p(files=['gone.ts'])], O('/p/gone.ts', MINE)))
entry('D88', 'later', 'letters of another case', case([p(files=['X.ts'])], O('/p/x.ts', NONE)))

entry('D89', 'later', 'options that TypeScript has dropped since',
      case([p(preserveValueImports=True, importsNotUsedAsValues='error')], B('built 0 0 | base=/p | flag 7=1 | text 4=error')))

# ---------------------------------------------------------------- this port against the crate
# Answers here are the port's. Refusals 1 to 7 come from the judge's checker, 12 from the place where the crate is stopped.
entry('E2', 'port', 'limits', case([p(rootDirs=list('abcdefghi'))], B('refused 5 46')))
entry('E3', 'port', 'bytes of a string', case([p(include=['src\\x'])], B('refused 4 6')))
entry('E4', 'port', 'names and patterns',
      case([rec('/p/[id]/tsconfig.json')], B('refused 4 0', of='/p/[id]/tsconfig.json')),
      case([p(include=['src/*.{ts,tsx}'])], O('/p/src/x.ts', 'refused 4 6', OUT)),
      case([p(include=['a**'])], B('refused 4 6')), case([p(extends=['/x/../y'])], B('refused 4 5')))
entry('E5', 'port', 'twice the same', case([p(), p()], B('refused 6 6')),
      case([rec('/p'), p()], B('refused 6 6')))
entry('E6', 'port', 'the question', case([p()], O('/p/x.ts?raw', 'refused 7 0'), O('x.ts', 'refused 7 0'), O('/p/../q/x.ts', 'refused 7 0')))
entry('E7', 'port', '`extends` of a package',
      case([p(extends=['pkg']), rec('/p/node_modules/pkg/tsconfig.json', strict=True)], B('refused 12 0', 'strict=true')),
      case([p(extends=['#name'])], B('refused 12 0')), case([p(extends=['./nope', 'pkg'])], B('refused 12 0')))
entry('E9', 'port', 'one config under two names',
      case([p(extends=['./d', './d.json'], references=['./d', './d.json']), rec('/p/d.json', extends=['./e']), rec('/p/e.json', strict=True)],
           B('built 0 3 | base=/p | reference=./d | reference=./d.json | flag 2=1')))
entry('E10', 'port', 'an owner lost by one long-lived resolver',
      case([rec('/a/tsconfig.json', references=['./r.json'], **SOLUTION), rec('/a/r.json', include=['b']),
            rec('/a/b/tsconfig.json', include=['nothing'], references=['../tsconfig.json'])],
           ('O /a/b/x.ts', 'owner 0 1', None, None), stores={'O /a/b/x.ts': 'owner none'}))
entry('E11', 'port', 'a refusal hidden by one long-lived resolver',
      case([rec('/a/tsconfig.json', references=['.'], include=['none']), rec('/a/b/tsconfig.json', include=['none'], references=['../tsconfig.json']),
            rec('/c/tsconfig.json', references=['./gone'], include=['none']), rec('/c/d/tsconfig.json', include=['none'], references=['../tsconfig.json']),
            rec('/c/e/tsconfig.json', include=['none'], references=['..'])],
           ('O /a/b/x.ts', 'refused 10 0', None, None), ('O /c/d/x.ts', 'refused 8 2', None, None), ('O /c/e/x.ts', 'refused 8 2', None, None),
           stores={'O /a/b/x.ts': 'owner none', 'O /c/d/x.ts': 'owner none'}))

entry('E12', 'port', 'a last `**`',
      case([rec(R, include=['/**'])], O('/', NONE), O('/x.ts', MINE)))

# ---------------------------------------------------------------- where crate, document and TypeScript agree
entry('S1', 'agree', '`files` before `exclude` and extensions',
      case([p(files=['x.js', 'y.ts'], exclude=['**/*'])], O('/p/x.js', MINE, IN), O('/p/y.ts', MINE, IN), O('/p/z.ts', NONE, OUT)))
entry('S2', 'agree', 'a present but empty list hides the parent\'s',
      case([p(extends=[D], include=[]), d(include=['/p/src'])], O('/p/src/x.ts', NONE, OUT)))
entry('S3', 'agree', 'a plain folder in `include` or `exclude`',
      case([p(include=['src'], exclude=['src/gen'])], O('/p/src/a/x.ts', MINE, IN), O('/p/src/gen/x.ts', NONE, OUT), O('/p/x.ts', NONE, OUT)))
entry('S4', 'agree', '`paths` is replaced whole, its base is the writer\'s',
      case([p(extends=[D], paths=[('a', ['./x'])]), d(paths=[('b', ['./y'])])], C('a', 'candidates 1 | /p/x', '/p/x'), C('b', 'candidates 0', 'none')),
      case([p(extends=[D]), d(paths=[('b', ['./y'])])], C('b', 'candidates 1 | /b/y', '/b/y')),
      case([p(extends=[D], paths=[('a', ['x'])]), d(baseUrl='u')], C('a', 'candidates 1 | /b/u/x', '/b/u/x')))
entry('S5', 'agree', 'which key: equal, then longest prefix, then the earlier',
      case([p(paths=[('*', ['./1/*']), ('a*', ['./2/*']), ('a*c', ['./3/*']), ('abc', ['./4'])])],
           C('abc', 'candidates 1 | /p/4', '/p/4'), C('axc', 'candidates 1 | /p/2/xc', '/p/2/xc'), C('b', 'candidates 1 | /p/1/b', '/p/1/b')),
      case([p(paths=[('ab*bc', ['./1/*'])])], C('abc', 'candidates 0', 'none')))
entry('S6', 'agree', '`rootDirs`: where the file stands first, then the others',
      case([p(rootDirs=['src', 'gen', 'src/a'])], T('/p/src/a', './x', 'tries 3 | /p/src/a/x | /p/src/x | /p/gen/x', '/p/src/a/x /p/src/x /p/gen/x')))
entry('S7', 'agree', 'inherited path options stand in the writer\'s folder',
      case([p(extends=[D]), d(outDir='o', declarationDir='t', rootDirs=['r'])],
           B('built 0 1 | base=/b | rootDir=/b/r | outDir=/b/o | declarationDir=/b/t', 'rootDirs=["/b/r"] outDir="/b/o" declarationDir="/b/t"')))
entry('S8', 'agree', '`references` are not inherited',
      case([p(extends=[D]), d(references=['/b/r.json']), rec('/b/r.json')], B('built 0 1 | base=/b', '', ask='reference')))
entry('S9', 'agree', 'a claiming reference before the config itself',
      case([p(references=['./r.json']), rec('/p/r.json', include=['src'])], S('/p/src/x.ts', 'owner 0 1', '/p/r.json')))
