"""For `tools/mutants --of python|rust`: changes of a binding's code, all in one build, in which the variable MUTANT chooses one by its number.

Where REACHED names a file it gets the numbers of those that a test comes to. So a change is tried by these tests alone, the quickest first: those of
unittest, or those of cargo with the examples in comments. A test that doesn't end any more has found it, if it ends in that time without the change.
"""
import ast
import copy
import glob
import importlib
import json
import marshal
import multiprocessing
import os
import random
import re
import shutil
import signal
import subprocess
import sys
import tempfile
import threading
import time
import unittest
import warnings
from collections import defaultdict
from concurrent.futures import ThreadPoolExecutor

from made import ROOT, read

HANGS = "it doesn't end"
# Changes that nobody could see, or that another step of the gate finds: the file, what the line has (with \n: it and the next one), how the
# operator begins, and why.
EQUIVALENT = [
    ("__main__.py", r"before.get\(name, \(None, 0", "", "a member that the old declaration hasn't has no first field there"),
    ("__main__.py", r"os.close\(folder\)", "", "the program ends, and its descriptors with it"),
    ("session.py", "if timeout > 0 else 0", "comparison", "a deadline of now has passed, too"),
    ("session.py", r'self.stores = 0\n +"""', "one", "each section begins to count anew"),
    ("heap.py", "ring=4_096, fingerprint=plan", "", "it only saves memory while a new heap is made"),
    ("heap.py", r'"ring", ring, 4_096', "", "the library refuses it too, in other words"),
    ("library.py", "^ALL_SECTIONS", "one less", "no lane has so many sections"),
    ("errors.py", r"^    \d+: \w+,", "", "tools/statuses finds it"),
    ("declare.py", "raise NotImplementedError", "", "each kind of member has its own"),
    ("durable.rs", r"let mut is_durable = false;", "", "the library writes it"),
    ("held.rs", r"let mut (value|lanes|slot) = ", "", "the library writes it"),
    ("session.rs", r"self.enter_by\(object, 0\)", "one more", "a deadline of one nanosecond has passed, too"),
    ("durable.rs", "^            return;$", "no way out", "no waker has the ticket 0"),
    ("durable.rs", r"ticket == 0 \{\n +return;", "never", "as above"),
    ("durable.rs", "return Ok\\(\\(\\)\\);$", "no way out", "what is asked for next has the heap's end"),
    ("durable.rs", r"inner.is_over \{$", "never", "as above"),
    ("durable.rs", "is_asked && progress.end == OK", "never", "it only asks for the round once more"),
    ("durable.rs", "return None;$", "no way out", "as above"),
    ("durable.rs", r"Ok\(_\) => \(None, true\)", "truth", "it only asks for the round once more"),
    ("durable.rs", "self.is_asked = true;", "", "as above"),
    ("durable.rs", r"inner.tickets \+= 1;", "one more", "tickets only have to differ"),
    ("durable.rs", r"^        drop\(old\);", "", "it is dropped where the function ends, too, which is after the lock"),
    ("options.rs", r"hash.max\(1\)", "one", "no plan is known that has such a hash"),
    ("error.rs", r"Error::last\(ErrorKind::Refused, path", "status", "a monitor is worn after 2^40 sections, and a heap's opening begins anew"),
]

# ---- Python: by the tree of its syntax ----

LIBS = os.environ.get("ZELAMIKU_LIBS", f"{ROOT}/crates/zelamiku/out/host")
SWAPS = {ast.Lt: ast.LtE, ast.LtE: ast.Lt, ast.Gt: ast.GtE, ast.GtE: ast.Gt, ast.Eq: ast.NotEq, ast.NotEq: ast.Eq, ast.Is: ast.IsNot, ast.IsNot: ast.Is, ast.In: ast.NotIn,
         ast.NotIn: ast.In, ast.Add: ast.Sub, ast.Sub: ast.Add, ast.Mult: ast.FloorDiv, ast.Div: ast.Mult, ast.BitAnd: ast.BitOr, ast.RShift: ast.LShift, ast.BitXor: ast.BitOr,
         ast.And: ast.Or, ast.Or: ast.And}  # fmt: skip
FRONT = """
import os as _os
_MUTANT, _SEEN = int(_os.environ.get("MUTANT", 0)), set()
_LOG = _os.open(_os.environ.get("REACHED", "/dev/null"), _os.O_WRONLY | _os.O_CREAT | _os.O_APPEND)
def _reached(number):
    if number not in _SEEN:
        _SEEN.add(number)
        _os.write(_LOG, b"%d " % number)
"""


def alternatives(node):
    """What may stand in the place of a node: an operator's name, and the new node."""
    other = lambda **fields: type(node)(**{**dict(ast.iter_fields(copy.deepcopy(node))), **fields})
    match node:
        case ast.Compare():
            for at, it in enumerate(node.ops):
                yield "comparison", other(ops=[*node.ops[:at], SWAPS[type(it)](), *node.ops[at + 1 :]])
        case ast.BoolOp() | ast.BinOp() | ast.AugAssign() if type(node.op) in SWAPS:
            yield {ast.BoolOp: "logic", ast.BinOp: "arithmetic", ast.AugAssign: "sum"}[type(node)], other(op=SWAPS[type(node.op)]())
        case ast.UnaryOp(op=ast.Not() | ast.USub()):
            yield "logic", copy.deepcopy(node.operand)
        case ast.Constant(value=bool()):
            yield "truth", ast.Constant(not node.value)
        case ast.Constant(value=int()):
            yield from (("one more", ast.Constant(node.value + 1)), ("one less", ast.Constant(node.value - 1)))
        case ast.JoinedStr() | ast.Constant(value=str()):
            yield "text", ast.Constant("")
        case ast.If():
            yield from (("always", other(test=ast.Constant(True))), ("never", other(test=ast.Constant(False))))
        case ast.While():
            yield "never", other(test=ast.Constant(False))
        case ast.IfExp():
            yield "branches", other(body=copy.deepcopy(node.orelse), orelse=copy.deepcopy(node.body))
        case ast.Call(func=ast.Name(id=name)) if re.search("Error$|^Refused$|^NotHeld$|^InSection$|^TimedOut$|^OutOf|^Reverted$|^BadPlan$|^NoLib|^OtherHeap$", name):
            yield "exception", other(func=ast.Name("RuntimeError", ast.Load()))
        case ast.Call():
            for it in node.keywords:
                yield "no argument", other(keywords=[copy.deepcopy(each) for each in node.keywords if each is not it])
        case ast.Return(value=value) if value and ast.unparse(value) != "None":
            yield "no result", ast.Return(ast.Constant(None))
        case ast.Return() | ast.Raise() | ast.Break() | ast.Continue():
            yield "no way out", ast.Pass()
    if isinstance(node, (ast.Assign, ast.AugAssign, ast.Delete)) or isinstance(node, ast.Expr) and isinstance(node.value, (ast.Call, ast.Await)):
        yield "no call" if isinstance(node, ast.Expr) else "no assignment", ast.Pass()
    if isinstance(node, ast.ExceptHandler) and node.type:
        yield "no handler", other(type=ast.Tuple([], ast.Load()))


class Changer(ast.NodeTransformer):
    """Collects the changes of a file's tree, and puts in those that have a number by their place among them."""

    def __init__(self, name, numbers, is_reach):
        self.name, self.numbers, self.is_reach, self.all = name, numbers, is_reach, []
        self.lines = read(f"bindings/python/zelamiku/{name}").split("\n")
        self.tree = self.visit(ast.parse("\n".join(self.lines)))

    def visit(self, node):
        if isinstance(node, ast.arg) or isinstance(node, ast.If) and ast.unparse(node.test) == "TYPE_CHECKING" or isinstance(node, ast.Expr) and isinstance(node.value, ast.Constant):
            return node
        mine = list(alternatives(node))
        places = range(len(self.all), len(self.all) + len(mine))
        rest = dict(file=self.name, line=node.lineno, text=self.lines[node.lineno - 1], next=self.lines[node.lineno], old=ast.unparse(node)) if mine else {}
        self.all += [dict(rest, operator=name, new=ast.unparse(new)) for name, new in mine]
        if isinstance(node, (ast.FunctionDef, ast.AsyncFunctionDef)):
            node.returns = None
        node = node if isinstance(node, ast.JoinedStr) else self.generic_visit(node)
        for place, (_, new) in zip(places, mine):
            if (number := self.numbers.get(place)) is not None:
                # No call, since a signal's handler may run after one.
                test = ast.parse(f"_reached({number})" if self.is_reach else f"_MUTANT == {number}", mode="eval").body
                if isinstance(node, ast.ExceptHandler):
                    node.type = ast.IfExp(test, new.type, node.type)
                else:
                    node = ast.If(test, [new], [node]) if isinstance(node, ast.stmt) else ast.IfExp(test, new, node)
        return node


def python(folder):
    """Yields all changes, and is sent those that are to be in the build. Then it yields the tests, and how some of them are run."""
    names = [os.path.basename(it) for it in sorted(glob.glob(f"{ROOT}/bindings/python/zelamiku/*.py")) if not it.endswith("__init__.py")]
    chosen = yield [dict(it, place=place) for name in names for place, it in enumerate(Changer(name, {}, False).all)]
    for is_reach in (True, False):
        at = f"{folder}/{is_reach}/python/tests"
        shutil.copytree(f"{ROOT}/bindings/python/tests", at)
        os.symlink(f"{ROOT}/bindings/c", f"{folder}/{is_reach}/c")
        with open(f"{at}/support.py", "w", encoding="utf-8") as file:
            file.write(re.sub(r"(?m)^PATIENCE = .*", "PATIENCE = 60", read("bindings/python/tests/support.py")))
        os.mkdir(f"{at}/zelamiku")
        shutil.copy(f"{ROOT}/bindings/python/zelamiku/__init__.py", f"{at}/zelamiku")
        for name in names:
            tree = Changer(name, {it["place"]: it["number"] for it in chosen if it["file"] == name}, is_reach).tree
            tree.body[2:2] = ast.parse(FRONT).body
            with open(f"{at}/zelamiku/{name}c", "wb") as file:
                file.write(importlib.util.MAGIC_NUMBER + bytes(12) + marshal.dumps(compile(ast.fix_missing_locations(tree), name, "exec")))
    # What they import of the system is imported once for all.
    for path in glob.glob(f"{ROOT}/bindings/python/*/*.py"):
        for name in re.findall(r"(?m)^ *(?:import|from) ([a-z][\w.]*)", read(os.path.relpath(path, ROOT))):
            if not re.match("zelamiku|support", name):
                importlib.import_module(name)

    def run(tests, seconds, **environment):
        child = multiprocessing.get_context("fork").Process(target=run_python, args=(f"{folder}/{'REACHED' in environment}/python/tests", tests, environment))
        child.start()
        child.join(seconds)
        if child.exitcode is None:
            os.killpg(child.pid, signal.SIGKILL)
            return HANGS
        with open(f"{folder}/{child.pid}", encoding="utf-8", errors="replace") as file:
            return file.read() if child.exitcode or not tests else ""

    yield run([], 600).split(), run


def run_python(at, tests, environment):
    """Runs these tests in this process, which is forked for it; without one it prints the names of all."""
    os.setsid()
    threading.current_thread().name = "MainThread"
    for descriptor in (1, 2):
        os.dup2(os.open(f"{at}/../../../{os.getpid()}", os.O_WRONLY | os.O_CREAT | os.O_APPEND), descriptor)
    os.chdir(at)
    os.environ.update(environment, PYTHONPATH=at, ZELAMIKU_LIBS=LIBS)
    sys.path.insert(0, at)
    sys.dont_write_bytecode = False
    sys.warnoptions.append("error::ResourceWarning")
    warnings.simplefilter("error", ResourceWarning)
    left = [] if tests else list(unittest.defaultTestLoader.discover("."))
    while left:
        it = left.pop()
        left += it if isinstance(it, unittest.TestSuite) else []
        print("" if isinstance(it, unittest.TestSuite) else it.id(), flush=True)
    os._exit(bool(tests) and not unittest.main(None, argv=["tests", "--failfast", *tests], exit=False).result.wasSuccessful())


# ---- Rust: by its lines, as rustfmt leaves them ----

MUTANT = """
pub(crate) fn mutant(number: u32) -> bool {
    use std::{collections::HashSet, env::var, fs::File, io::Write, sync::{Mutex, OnceLock}};
    static CHOSEN: OnceLock<u32> = OnceLock::new();
    static SEEN: OnceLock<Option<Mutex<(File, HashSet<u32>)>>> = OnceLock::new();
    let seen = SEEN.get_or_init(|| var("REACHED").ok().map(|path| Mutex::new((File::options().create(true).append(true).open(path).unwrap(), HashSet::new()))));
    if let Some((file, numbers)) = seen.as_ref().map(|seen| seen.lock().unwrap()).as_deref_mut() {
        if numbers.insert(number) {
            write!(file, "{number} ").unwrap();
        }
    }
    *CHOSEN.get_or_init(|| var("MUTANT").ok().and_then(|it| it.parse().ok()).unwrap_or(0)) == number
}
"""
CONDITION = r"^ *(?:\} else )?(?:if|while) (?!let )(?P<it>[^{}]+) \{$"
# Where a line has an expression that another one may stand for; the last is what a block comes to.
SITES = [CONDITION, r"^ *let (?:mut )?[^=;]+? = (?P<it>[^;]+);$", r"^ *[\w.*]+ [-+|&]?= (?P<it>[^;]+);$", r"^ *[\w:| (),.@]+ => (?P<it>[^{}]+),$",
         r"^ +[a-z_]+: (?P<it>(?!u32|u64|usize|bool|i32|&')[a-z0-9(!&*][^;]*),$", r"^ *(?P<it>(?!use |let |return |fn |pub |impl |mod )[A-Za-z*(!&][^;]*[^;{},])$"]  # fmt: skip
STATEMENT = r"^ *(?P<it>(?:let _ = )?(?!let |use |pub |const |static |mod |type |fn |extern )[a-z*][^;{}]*;)$"
NAMES = {"ErrorKind": ["Refused", "Closed"], "Refusal": ["NotHeld", "Device"], "Part": ["Objects", "Lanes"], "Why": ["NotEnded", "Unsettled"], "Level": ["Info", "Error"]}
TURNED = {"<": "<=", "<=": "<", ">": ">=", ">=": ">", "==": "!=", "!=": "==", "+": "-", "-": "+", "*": "/", "/": "*", "&&": "||", "||": "&&", "true": "false", "false": "true",
          "some": "none", "none": "some", "min": "max", "max": "min"}  # fmt: skip
turned = lambda it: it[0].replace(it[1], TURNED[it[1]])
OPERATORS = [("comparison", r" (<=|>=|<|>|==|!=) ", turned), ("arithmetic", r" ([+*/-]) (?=\w)", turned), ("logic", r" (&&|\|\|) ", turned), ("logic", r"\.is_(some|none)", turned),
             ("logic", r"(?<![\w!])!(?=[a-z(])", lambda it: ""), ("truth", r"\b(true|false)\b", turned), ("limit", r"\.(min|max)\(", turned), ("text", r'"[^"]+"', lambda it: '""'),
             ("one more", r"(?<![\w.])(\d[\d_]*)(?![\w.])", lambda it: str(int(it[1]) + 1)), ("one less", r"(?<![\w.])([1-9][\d_]*)(?![\w.])", lambda it: str(int(it[1]) - 1)),
             ("status", rf"\b({'|'.join(NAMES)})::(?!from|of)(\w+)", lambda it: f"{it[1]}::{NAMES[it[1]][it[2] == NAMES[it[1]][0]]}"),
             ("nothing", r"\bSome\((?!\|)[^()]*(?:\([^()]*\))?[^()]*\)(?! =)", lambda it: "None"),
             ("branches", r"\{ ([^{}]+) \} else \{ ([^{}]+) \}", lambda it: f"{{ {it[2]} }} else {{ {it[1]} }}")]  # fmt: skip


def rust_lines():
    for path in sorted(glob.glob(f"{ROOT}/bindings/rust/src/*.rs")):
        yield os.path.basename(path), read(os.path.relpath(path, ROOT)).split("\n")


def rust_changes():
    for name, lines in rust_lines():
        for number, line in enumerate(lines if name != "scratch.rs" else []):
            line = line.split(" // ")[0]
            if "$" in line or re.match(r" *(//|#|$)", line):
                continue
            rest = dict(file=name, line=number + 1, text=line, next=lines[number + 1])
            if it := re.match(STATEMENT, line):
                operator = "no way out" if re.match("return|break|continue", it["it"]) else "no assignment" if re.match(r"[^(_]* [-+|&]?= ", it["it"]) else "no call"
                yield dict(rest, operator=operator, old=it["it"], new="", span=None)
            site = next((it for it in (re.match(part, line) for part in SITES) if it), None)
            if site and (site.re.pattern != SITES[-1] or lines[number + 1].lstrip().startswith("}")):
                rest, text = dict(rest, old=site["it"], span=site.span("it")), site["it"]
                whole = {"always": f"true || ({text})", "never": f"false && ({text})"} if site.re.pattern == CONDITION else {"default": "Default::default()"} if not re.fullmatch(r"0|false|None|[\w:]*default\(\)", text) else {}
                yield from (dict(rest, operator=operator, new=new) for operator, new in whole.items())
                for operator, pattern, new in OPERATORS:
                    for it in re.finditer(pattern, text):
                        if operator == "text" or text.count('"', 0, it.start()) % 2 == 0:
                            yield dict(rest, operator=operator, new=text[: it.start()] + new(it) + text[it.end() :])


def write_rust(folder, changes):
    """Writes the crate with these changes. Returns of each, by its number, the file, the line, and the columns that it has there."""
    places, by = {}, defaultdict(list)
    for it in changes:
        by[it["file"], it["line"]].append(it)
    for name, lines in rust_lines():
        for number, mine in ((number, mine) for (file, number), mine in by.items() if file == name):
            line, parts = lines[number - 1], [it for it in mine if it["span"]]
            begin, end = parts[0]["span"] if parts else (0, 0)
            made = "".join(f"if !crate::mutant({it['number']}) {{ " for it in mine if not it["span"]) + line[:begin] + "(" * bool(parts)
            for it in mine:
                more = f"if crate::mutant({it['number']}) {{ {it['new']} }} else " if it["span"] else ""
                places[it["number"]] = name, number, len(made), len(made + more)
                made += more
            made += f"{{ {line[begin:end]} }})" * bool(parts) + line[end:]
            lines[number - 1] = made + " }" * (len(mine) - len(parts))
        with open(f"{folder}/src/{name}", "w", encoding="utf-8") as file:
            file.write("\n".join(lines) + (MUTANT if name == "lib.rs" else ""))
    return places


def rust(folder):
    """The same of Rust: what doesn't compile is no change."""
    at = f"{folder}/bindings/rust"
    shutil.copytree(f"{ROOT}/bindings/rust", at, ignore=shutil.ignore_patterns("target"))
    # (a test compares numbers with those of the header and the crates)
    for name in ("bindings/c", "crates"):
        os.symlink(f"{ROOT}/{name}", f"{folder}/{name}")
    how = {**os.environ, "ZELAMIKU_LIBS": LIBS, "CARGO_TARGET_DIR": f"{folder}/target", "RUSTC_BOOTSTRAP": "1", "RUSTFLAGS": "-A warnings",
           "RUSTDOCFLAGS": f"-A warnings -Z unstable-options --persist-doctests {folder}/examples"}  # fmt: skip
    cargo = lambda *words: subprocess.run(["cargo", *words, "--offline", "--quiet"], cwd=at, env=how, capture_output=True, text=True, check=False)
    changes, wrong = [dict(it, number=number) for number, it in enumerate(rust_changes(), 1)], {0}
    while wrong:
        wrong, places = set(), write_rust(at, changes)
        for line in cargo("check", "--message-format=json").stdout.splitlines():
            message = json.loads(line).get("message") or {}
            spans = [(os.path.basename(it["file_name"]), it["line_start"], it["column_start"] - 1, it["line_end"]) for it in message.get("spans", ()) if message["level"] == "error"]
            exact = {number for number, (name, line, begin, end) in places.items() for it in spans if it[:2] == (name, line) and begin <= it[2] < end}
            wrong |= exact or {number for number, it in places.items() for span in spans if span[0] == it[0] and span[1] <= it[1] <= span[3]}
            if spans and not wrong:
                sys.exit(f"mutants: {message['rendered']}")
        changes = [it for it in changes if it["number"] not in wrong]
    write_rust(at, (yield changes))
    programs = [json.loads(line).get("executable") for line in cargo("test", "--no-run", "--message-format=json").stdout.splitlines()]
    listed = {it: subprocess.run([it, "--list"], capture_output=True, text=True, check=True).stdout.splitlines() for it in programs if it}
    if cargo("test", "--doc").returncode:
        sys.exit("mutants: without a change an example in Rust fails")

    def run(tests, seconds, **environment):
        for program, *name in map(str.split, tests):
            with subprocess.Popen([program, *(["--exact"] if name else []), *name], cwd=at, env={**how, **environment}, stdout=subprocess.PIPE, stderr=subprocess.STDOUT, text=True) as it:
                try:
                    out = it.communicate(timeout=min(seconds, 60))[0]
                except subprocess.TimeoutExpired:
                    it.kill()
                    out = HANGS
            if it.returncode:
                return out
        return ""

    yield [f"{it} {name[:-6]}" for it, lines in listed.items() for name in lines if name.endswith(": test")] + glob.glob(f"{folder}/examples/*/rust_out"), run


# ---- both ----


def choose(changes, count, seed):
    """So many changes, of each operator as many as of another."""
    chance, by, chosen = random.Random(seed), defaultdict(list), []
    for it in changes:
        by[it["operator"]].append(it)
    for them in by.values():
        chance.shuffle(them)
    while len(chosen) < count and any(by.values()):
        chosen += [by[operator].pop() for operator in sorted(by) if by[operator]]
    return [dict(it, number=number) for number, it in enumerate(chosen[:count], 1)]


def told(it):
    return f"{it['file']}:{it['line']}: {it['operator']}: {' '.join(it['old'].split())[:90]} -> {' '.join(it['new'].split())[:90] or 'nothing'}"


def main(of, asked):
    """Tries so many changes, and prints the score."""
    counts, reached = defaultdict(int), defaultdict(list)
    with tempfile.TemporaryDirectory() as folder, ThreadPoolExecutor(asked.jobs) as pool:
        binding = {"python": python, "rust": rust}[of](folder)
        chosen = [it for it in choose(next(binding), asked.count, asked.seed) if re.search(asked.only, it["text"])]
        if asked.list:
            return print("\n".join(map(told, chosen)))
        tests, run = binding.send(chosen)

        def reach(test):
            log, begun = f"{folder}/{tests.index(test)}.log", time.monotonic()
            # (the log takes its time where signals come)
            if run([test], 1200, REACHED=log) and (wrong := run([test], 1200)):
                print(f"mutants: without a change: {test}: {wrong}", flush=True)
                os._exit(1)
            if os.path.exists(log):
                with open(log, encoding="utf-8") as file:
                    for it in set(file.read().split()):
                        reached[int(it)].append((time.monotonic() - begun, test))

        list(pool.map(reach, tests))

        def one(it):
            has = lambda part: re.search(part, f"{it['text']}\n{it['next']}" if r"\n" in part else it["text"])
            if why := next((why for name, part, operator, why in EQUIVALENT if name == it["file"] and it["operator"].startswith(operator) and has(part)), ""):
                return "equivalent", why
            quickest = sorted(reached[it["number"]])
            tests, most = [test for _, test in quickest], 60 + 4 * sum(seconds for seconds, _ in quickest)
            wrong = run(tests, most, MUTANT=str(it["number"])) if tests else ""
            if wrong == HANGS and run(tests, most):
                return "no verdict", wrong
            return ("found", wrong.strip().splitlines()[-1][:100]) if wrong else ("SURVIVED", f"{len(tests)} tests come there")

        for it, (what, why) in zip(chosen, pool.map(one, chosen)):
            counts[what] += 1
            print(f"{told(it)}: {what}: {why}", flush=True)
    seen = counts["found"] + counts["SURVIVED"]
    print(f"seed {asked.seed}: {counts['found']} of {seen} found, {100 * counts['found'] / max(seen, 1):.1f} %; {counts['equivalent']} equivalent, {counts['no verdict']} without a verdict")
    return 1 if counts["SURVIVED"] else 0

