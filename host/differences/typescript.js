// Puts the entries' inputs to TypeScript itself (Debian's node-typescript, 4.8.4).
//
// Standard input: a JSON list of {records: [[path, json text]..], disk: {path: text}, questions: [..]}.
// Standard output: a JSON list of lists of answers. TYPESCRIPT names the library, tsserverlibrary.js.
//
// Questions:
//   ["list", config, file]            "in" or "out": is the file, alone on the disk, in the config's list of files
//   ["fields", config]                the parsed options and the numbers of the errors
//   ["errors", config]                the numbers of the faults that a program of this config reports of its options
//   ["candidates", config, name]      the paths its resolver tries for `paths` and `baseUrl`, nothing being there
//   ["tries", config, folder, name]   the same from a folder, `rootDirs` too
//   ["reference", config]             which file each reference names
//   ["server", file]                  the project that tsserver opens the file in
'use strict';
const library = process.env.TYPESCRIPT || '/usr/share/nodejs/typescript/lib/tsserverlibrary.js';
const ts = require(library);

function disk(files) {
    const folders = new Set(['/']);
    for (const file of files.keys()) {
        for (let at = file.lastIndexOf('/'); at > 0; at = file.lastIndexOf('/', at - 1)) folders.add(file.slice(0, at));
    }
    const bare = path => (path.length > 1 ? path.replace(/\/+$/, '') : path);
    const entries = folder => {
        const start = bare(folder) === '/' ? '/' : bare(folder) + '/';
        const below = list => [...list].filter(path => path !== '/' && path.startsWith(start) && !path.slice(start.length).includes('/'))
            .map(path => path.slice(start.length)).filter(name => name !== '');
        return { files: below(files.keys()), directories: below(folders) };
    };
    return {
        newLine: '\n', args: [], useCaseSensitiveFileNames: true,
        fileExists: path => files.has(path), readFile: path => files.get(path),
        directoryExists: path => folders.has(bare(path)), getDirectories: path => entries(path).directories,
        readDirectory: (root, extensions, excludes, includes, depth) =>
            ts.matchFiles(root, extensions, excludes, includes, true, '/', depth, entries, path => path),
        getCurrentDirectory: () => '/', getExecutingFilePath: () => '/ts/tsserver.js', resolvePath: path => path, realpath: path => path,
        onUnRecoverableConfigFileDiagnostic: () => {}, write() {}, writeFile() {}, createDirectory() {}, exit() {}, trace() {},
        watchFile: () => ({ close() {} }), watchDirectory: () => ({ close() {} }),
        setTimeout() {}, clearTimeout() {}, setImmediate() {}, clearImmediate() {}, getEnvironmentVariable: () => '',
    };
}

const parsed = (files, config) => ts.getParsedCommandLineOfConfigFile(config, {}, disk(files));

function fields(files, config) {
    const { options, errors } = parsed(files, config);
    const out = [];
    for (const name of ['baseUrl', 'paths', 'rootDirs', 'outDir', 'declarationDir', 'strict', 'allowJs', 'target']) {
        if (options[name] !== undefined) out.push(name + '=' + JSON.stringify(options[name]));
    }
    // 18003 (no input files) is always met: the disk holds no sources.
    for (const error of errors) if (error.code !== 18003) out.push('TS' + error.code);
    return out.join(' ');
}

// With nothing on the disk, the trace names every path that would have been loaded as file or folder.
function stems(files, config, folder, name) {
    const tried = [];
    let open = true;
    const host = {
        fileExists: () => false, readFile: () => undefined, realpath: path => path, getCurrentDirectory: () => '/',
        trace(line) {
            const found = /^Loading module as file \/ folder, candidate module location '(.*)', target file type 'TypeScript'\.$/.exec(line);
            if (/ from 'node_modules' folder, target file type/.test(line)) open = false;
            if (found && open) tried.push(found[1]);
        },
    };
    const options = Object.assign({}, parsed(files, config).options, { traceResolution: true, moduleResolution: ts.ModuleResolutionKind.NodeJs });
    ts.nodeModuleNameResolver(name, folder + '/importing.ts', options, host);
    // A relative name is at last tried where it stands; that is neither mapping nor root dir.
    if (ts.isExternalModuleNameRelative(name)) tried.pop();
    return tried;
}

function server(files, file) {
    const host = disk(files);
    const silent = () => {};
    const logger = {
        close: silent, hasLevel: () => false, loggingEnabled: () => false, perftrc: silent, info: silent, startGroup: silent, endGroup: silent,
        msg: silent, getLogFileName: () => undefined,
    };
    const service = new ts.server.ProjectService({
        host, logger, cancellationToken: ts.server.nullCancellationToken, useSingleInferredProject: false,
        useInferredProjectPerProjectRoot: false, typingsInstaller: ts.server.nullTypingsInstaller, session: undefined,
    });
    service.openClientFile(file);
    const project = service.getDefaultProjectForFile(ts.server.toNormalizedPath(file), false);
    return project && project.projectKind === ts.server.ProjectKind.Configured ? project.getProjectName() : 'no config';
}

function answer({ records, disk: texts }, [kind, ...rest]) {
    const files = new Map(records);
    for (const [path, text] of Object.entries(texts || {})) files.set(path, text);
    if (kind === 'list') {
        const [config, file] = rest;
        if (!files.has(file)) files.set(file, '');
        return parsed(files, config).fileNames.includes(file) ? 'in' : 'out';
    }
    if (kind === 'errors') {
        const host = Object.assign(disk(files), {
            getSourceFile: () => undefined, getDefaultLibFileName: () => '/lib.d.ts', getCanonicalFileName: path => path, getNewLine: () => '\n',
        });
        host.useCaseSensitiveFileNames = () => true;
        const program = ts.createProgram([], Object.assign({ noLib: true }, parsed(files, rest[0]).options), host);
        return program.getOptionsDiagnostics().map(error => 'TS' + error.code).join(' ');
    }
    if (kind === 'fields') return fields(files, rest[0]);
    if (kind === 'candidates') return stems(files, rest[0], '/importing', rest[1]).join(' ') || 'none';
    if (kind === 'tries') return stems(files, ...rest).join(' ') || 'none';
    if (kind === 'reference') return (parsed(files, rest[0]).projectReferences || []).map(ts.resolveProjectReferencePath).join(' ');
    if (kind === 'server') {
        if (!files.has(rest[0])) files.set(rest[0], '');
        return server(files, rest[0]);
    }
    throw new Error('unknown question ' + kind);
}

const entries = JSON.parse(require('fs').readFileSync(0, 'utf8'));
const answers = entries.map(entry => entry.questions.map(question => {
    try {
        return answer(entry, question);
    } catch (error) {
        return 'error ' + error.message;
    }
}));
process.stdout.write(JSON.stringify({ version: ts.version, answers }));
