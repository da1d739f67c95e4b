"""Go packages under ctxvet, each by an action of its own.

    ctxvet_library(name = "store", importpath = "example.org/fleet/store", srcs = ["store.go"], deps = ["//lease"])

The action calls ctxvet as the go command does under `go vet -vettool`: by a file that says what the package is, which files
it has, and where that stands which was found of the packages that it imports. What it finds of the package itself goes to a
file NAME.vetx for those that import it, and its lines go to NAME.txt. An action sees its own sources and the vetx files of
its direct imports, and nothing else: neither the go command nor other packages' sources.

Lines don't fail this action, so that one build finds all of them. A `ctxvet_quiet` fails where there are some.
"""

CtxvetInfo = provider(
    doc = "A package that was judged.",
    fields = {
        "importpath": "its import path",
        "lines": "the file of its lines",
        "vetx": "the file that tells those who import it what was found of it",
    },
)

# Status 1 says that there are lines. With any other but 0 there is a fault, which is shown.
_COMMAND = """
"$@" > "$LINES"
status=$?
[ "$status" -le 1 ] || { cat "$LINES" >&2; exit "$status"; }
"""

def _unit(ctx, deps, vetx):
    """What the program has to know of a package, in the form that the go command has for it."""
    return {
        "ID": ctx.attr.importpath,
        "Dir": ctx.label.package or ".",
        "ImportPath": ctx.attr.importpath,
        "GoFiles": [file.path for file in ctx.files.srcs],
        "ImportMap": {dep.importpath: dep.importpath for dep in deps},
        "PackageVetx": {dep.importpath: dep.vetx.path for dep in deps},
        "VetxOnly": False,
        "VetxOutput": vetx.path,
    }

def _ctxvet_library_impl(ctx):
    deps = [dep[CtxvetInfo] for dep in ctx.attr.deps]
    config = ctx.actions.declare_file(ctx.label.name + ".cfg")
    vetx = ctx.actions.declare_file(ctx.label.name + ".vetx")
    lines = ctx.actions.declare_file(ctx.label.name + ".txt")
    ctx.actions.write(config, json.encode(_unit(ctx, deps, vetx)))
    inputs = [config] + ctx.files.srcs + [dep.vetx for dep in deps]
    words = ctx.actions.args()
    words.add(ctx.executable._program)
    if ctx.file.facts:
        words.add(ctx.file.facts, format = "-facts=%s")
        inputs.append(ctx.file.facts)
    if ctx.file.module:
        inputs.append(ctx.file.module)
    words.add(config)
    ctx.actions.run_shell(
        command = _COMMAND,
        arguments = [words],
        inputs = inputs,
        tools = [ctx.executable._program],
        outputs = [vetx, lines],
        env = {"LINES": lines.path},
        mnemonic = "Ctxvet",
        progress_message = "Judging " + ctx.attr.importpath,
    )
    return [
        DefaultInfo(files = depset([lines])),
        CtxvetInfo(importpath = ctx.attr.importpath, lines = lines, vetx = vetx),
    ]

ctxvet_library = rule(
    implementation = _ctxvet_library_impl,
    doc = "A Go package, judged by ctxvet.",
    attrs = {
        "importpath": attr.string(mandatory = True, doc = "The path by which others import it."),
        "srcs": attr.label_list(allow_files = [".go"], doc = "Its files, those of one system, without tests."),
        "deps": attr.label_list(
            providers = [CtxvetInfo],
            doc = "What it imports. An import that isn't among them counts as not given.",
        ),
        "facts": attr.label(allow_single_file = [".json"], doc = "Declared facts, the same for all packages."),
        "module": attr.label(
            allow_single_file = ["go.mod"],
            default = "//:go.mod",
            doc = "The module that it is of: in its folder or one above.",
        ),
        "_program": attr.label(
            allow_single_file = True,
            cfg = "exec",
            default = "@ctxvet//:ctxvet",
            executable = True,
        ),
    },
)

def _ctxvet_quiet_impl(ctx):
    lines = [package[CtxvetInfo].lines for package in ctx.attr.packages]
    none = ctx.actions.declare_file(ctx.label.name + ".txt")
    ctx.actions.run_shell(
        command = 'cat "$@" > "$NONE"; [ ! -s "$NONE" ] || { cat "$NONE" >&2; exit 1; }',
        arguments = [ctx.actions.args().add_all(lines)],
        inputs = lines,
        outputs = [none],
        env = {"NONE": none.path},
        mnemonic = "CtxvetQuiet",
    )
    return [DefaultInfo(files = depset([none]))]

ctxvet_quiet = rule(
    implementation = _ctxvet_quiet_impl,
    doc = "Can't be built where one of these packages has a line; all of them are shown then.",
    attrs = {
        "packages": attr.label_list(mandatory = True, providers = [CtxvetInfo], doc = "What must have no line."),
    },
)
