//! The words that books and questions are made of.

pub const CONFIG_DIR: &str = "${configDir}";

pub const FOLDERS: &[&str] = &[
    "/p", "/p", "/p", "/p", "/p/src", "/p/src", "/p/src/a", "/p/b", "/q", "/q", "", "", "/p/node_modules/m", "/ab", "/a", "/p/src/a/b",
    "/p b", "/p/gen", "/p/d", "/p/base", "/p/tsconfig",
];

pub const NAMES: &[&str] = &[
    "tsconfig.json", "tsconfig.json", "tsconfig.json", "tsconfig.json", "tsconfig.json", "tsconfig.json", "tsconfig.json", "d.json", "d",
    "base.json", "base.json", "r.json", "A.json", "B.json", "x", ".json", "tsconfig", "..d", ".x.json", "a.ts", "....json", "node_modules",
    "d.json.json", "tsconfig.json.json",
];

pub const PIECES: &[&str] = &[
    "a", "b", "src", "gen", "u", "w", "x", "k", ".", "..", "", "a.ts", "k.ts", "a.b", ".a", "..a", "node_modules", "lib", "...", "*", " ",
    "~",
];

pub const LEADS: &[&str] = &["", "", "", "/", "./", "../", "${configDir}", "${configDir}/", "//", "../../", "/p/"];

pub const STEMS: &[&str] = &["a", "k", "x", "src", "", ".", "a.b", "x.", "index", "ab", "a*", "x.d", "aXb", "..", ".a"];

pub const EXTENSIONS: &[&str] = &[
    ".ts", ".ts", ".ts", ".ts", ".tsx", ".mts", ".cts", ".js", ".js", ".jsx", ".mjs", ".cjs", ".vue", ".json", "", ".", ".TS", ".d.ts",
    ".*", ".t", ".tsx.", ".jss",
];

pub const FILES: &[&str] = &[
    "a.ts", "src/a.ts", "./src/a.ts", "src//a.ts", "src/./a.ts", "src/../k.ts", "/p/./k.ts", "//p/k.ts", "/p/k.ts/", "k.ts", "k.ts/",
    "${configDir}/k.ts", "${configDir}//k.ts/", "${configDir}a.ts", "${configDir}", "../x.js", "../a.ts", "", ".", "..", "a.js", "x.vue",
    "b/", "/p/src/../k.ts", "/", "x", "src", "x.", ".ts", "a.ts/.", "/p/src/a.ts", "/p/src/a.ts/.", "/./p/k.ts", "k*.ts", "?.ts",
    "../../../../../a.ts", "${configDir}/src/./a.ts", "${configDir}/../a.ts", "$", "${configDir", "a/${configDir}/b.ts",
];

pub const PATTERNS: &[&str] = &[
    "src", "src/", "src/*", "src/**/*", "**/*", "**/*", "**", "*", "", ".", "..", "*.ts", "src/*.vue", "**/*.vue", "**/*.ts", "?.ts",
    "src/?", "a?", "x.*", "a", "b", "b/", "${configDir}/src", "${configDir}**", "${configDir}/**/*", "${configDir}//src/../b/",
    "${configDir}", "${configDir}/", "${configDir}*", "/p/**/*", "/p/src", "//p/*", "/p//src", "/p/", "src/a.ts", "./src", "./src/",
    "**/node_modules/**", "**/a*", "*/a", "*.js", "**/*.js", ".ts", "*.TS", "src/**", "**/*.*", "a*b*c", "**/**", "**/src/**/*", "/**/*",
    "/", "..//src", "../**/*.ts", "src/../b/*", "*/", "**/", "src/**/", "?", "??", "*?", "**/?.ts", "x.", "k.ts", "/p/./k.ts", "*/*.ts",
    "nothing", ".a", "**/.a", "**/**/*.ts", "src/**/a/**/*", "*.*.*", "?*", "**/*a*a*b", "**/a/**/b/**/c", "src/**/../a", "/**", "/*/*",
    "/?", "**/..", "src.d/", "a.b",
];

pub const PATTERN_PIECES: &[&str] = &[
    "*", "?", "a", "b", "src", "**", "**", ".", "..", "", "*.ts", "a*", "*a?", "k.ts", "*.vue", "*.*", "?.ts", "x?", "*.js", "a*a*", "*b",
    "??*", ".*", "*.", "x.d",
];

pub const BASE_URLS: &[&str] = &[
    "", ".", "src", "./", "..", "/u/w", "/u/w/", "//u//w", "/u/w/.", "/u/w/..", "/x*", "x*", "${configDir}", "${configDir}/b",
    "${configDir}//b/../c/", "${configDir}x", "/", "a//b/", "${configDir", "a/${configDir}", "./src/", "../src", "//", "/./", "u", "u",
    "*", "/..", "/../u", "..//", "../..", "/u/*/w",
];

pub const KEYS: &[&str] = &[
    "*", "a*", "a*c", "ab*", "ab*bc", "a*b*", "@f/*", "@f/*", "@f", "@f/band", "", ".x", "./*", "/abs/*", "**", "*c", "*/x", "k", "x",
    "#a", "a", "abc", "@f/*/x", "@*", "@f*", "k*", "*k", "a**", "a b*", "\"*", ".", "..", "../*", "*b", "*bc", "a*bc", "abc*",
];

pub const KEY_HEADS: &[&str] = &["", "a", "ab", "abc", "@f/", "@f", "@", "b", ".", "/"];
pub const KEY_TAILS: &[&str] = &["", "", "", "c", "bc", "/x", "*", "b*", "/*", "a"];

pub const TARGETS: &[&str] = &[
    "src/*", "../*", "", "*", "/u/../v", "/abs/*", "${configDir}/*", "${configDir}", "${configDir}//../*", "${configDir}*", "t/*/*", "x",
    "./x", "src/", "..", ".", "/", "//a/*", "a//b/../*", "*/..", "../../*", "./*", "filt/*", "a/./*/", "/x*/y", "**", "*a*", "./../*",
    "a/../../*", "$", "${configDir", "../../../../../*", "/..", "*/../*", "${configDir}/../*/",
];

pub const ROOT_DIRS: &[&str] = &[
    "src", "gen", "/p/src", "/p/src/", "", ".", "..", "/p/./src", "//p/src", "${configDir}", "${configDir}/src", "${configDir}/src/", "/",
    "src/a", "/p", "/q", "./gen", "/p/gen", "src/../gen", "/p/src//", "/p/src/.", "node_modules", "/p/", "//", "/p/src/a", "/p/gen/..",
    "gen/", "/.",
];

pub const DIRS: &[&str] = &[
    "dist", "", ".", "..", "/o", "/o/", "${configDir}", "${configDir}/o", "${configDir}/../o/", "./dist/", "../../../..", "a//b",
    "/o/../d", "x/..", "//o",
];

pub const TEXTS: &[&str] = &["react", "", "esnext", "a=b", "x y", "\"", "${configDir}", "it's", "/", "~", " "];

pub const SPECIFIERS: &[&str] = &[
    "x", "abc", "a", "ab", "abbc", "abc", "ac", "@f/band", "@f", "@f/", "@f/a/x", "", ".", "..", "./x", "../x", "./", "../", ".x",
    "./a/../b", "/abs/x", "/", "*", "a*", "**", "k", "kk", "pkg/sub", "#a", "a/b", "../../..", "./../src/a", "./../../gen/x", "a//b",
    "a/./b/", "x?y#z", "...", "..a", "../gen/x", "./a.ts", "axb*", "\"q", " ", "src/a", "a/..", "a/../..", "./src/../gen/a", "../src/./a/",
    "//x", "/..", "./.", "././x", "..//x", "abcbc", "${configDir}/x", "/p/src/a", "/p/gen", "./../src/../src/a", "../../p/src/a",
];

pub const RELATIVE: &[&str] = &[
    "./x", "../x", ".", "..", "./", "../", "./a/b", "../gen/x", "../src/a", "./../gen", "../../gen/x", "./.", "./..", "././a/./", "..//x",
    "../src", "./a/../..", "../..", "../../..", "./src/../x", "../gen/../src/y", "./x/", "../src/", ".x", "...", "../gen",
    "./node_modules/m", "./*", "../src/./a/..",
];

pub const STARRED: &[&str] = &["", "x", "b", "a/b", "../z", "bc", "*", "./", "c", "..", "/", "${configDir}", "//y", "b*bc"];

pub const BAD_ASKED: &[&str] = &[
    "", "relative", "/p/", "//p", "/p//a.ts", "/p/./a.ts", "/p/../a.ts", "/p/a.ts?", "/p/a#b", "/p/a\\b", "/p/\x7f", "/p/\x1f", "./p",
    "/.", "/..", "/p\t", "?", "/p/a.ts/", "/p/\n", "#", "//", "\0", "/p/a.ts\0", "/p/src/..",
];

pub const BAD_SPECIFIERS: &[&str] = &["a\\b", "\x7f", "a\x01", "a\tb", "\n", "\0", "x\x1f", "\x1b"];

pub const ASKED_FOLDERS: &[&str] = &[
    "/p", "/p/src", "/p/gen", "/p/src/a", "/q", "/", "/p/node_modules/m", "/p/b", "/p/src/a/b", "/u/w", "/node_modules",
    "/p/node_modulesx", "/p/src/x", "/ab", "/p/src/node_modules",
];

pub const BROKEN_EXTENDS: &[&str] = &[
    "", "", "", "./none", "/none", "pkg", "#pkg", "@s/pkg", ".", "..", "./", "...", ".x", "..d", "/", "./tsconfig.json", "${configDir}/x",
    "~", "../none", "./none/", "pkg/tsconfig.json", "#",
];

pub const BROKEN_REFERENCES: &[&str] =
    &["", "./none", "/none", "none", "..", ".", "../..", "./tsconfig", "tsconfig.json", "./", "tsconfig", "${configDir}", "/", "#r", "."];
