"""The headers of one library, as one action with one output.

The action is deterministic: the files written are a function of the words and the bytes read. So
Bazel's cache and remote execution serve it, and a client that depends on the headers alone isn't
compiled again where only a body changed. The output folder is empty at first, so the header of a
class that is gone goes.
"""

def _headers_impl(ctx):
    classes = ctx.file.classes
    headers = ctx.actions.declare_directory(ctx.label.name)
    ctx.actions.run(
        executable = ctx.file._strip,
        arguments = [ctx.file._jheader.path, classes.path, headers.path],
        inputs = [classes, ctx.file._jheader],
        outputs = [headers],
        mnemonic = "Headers",
    )
    return [DefaultInfo(files = depset([headers]))]

headers = rule(
    implementation = _headers_impl,
    attrs = {
        # A folder of class files.
        "classes": attr.label(allow_single_file = True, mandatory = True),
        "_jheader": attr.label(default = "//tools:jheader", allow_single_file = True),
        "_strip": attr.label(default = "//tools:strip.sh", allow_single_file = True),
    },
)

def _classes_impl(ctx):
    classes = ctx.actions.declare_directory(ctx.label.name)
    args = ctx.actions.args()
    args.add("-d", classes.path)
    if ctx.files.path:
        args.add_joined("-cp", ctx.files.path, join_with = ":", expand_directories = False)
    args.add_all(ctx.files.srcs)
    ctx.actions.run_shell(
        command = 'javac "$@"',
        arguments = [args],
        inputs = ctx.files.srcs + ctx.files.path,
        outputs = [classes],
        mnemonic = "Classes",
        use_default_shell_env = True,
    )
    return [DefaultInfo(files = depset([classes]))]

# The class files of sources, by the `javac` of the machine, so that the example needs no other rules.
classes = rule(
    implementation = _classes_impl,
    attrs = {
        "srcs": attr.label_list(allow_files = [".java"]),
        # Folders of headers.
        "path": attr.label_list(allow_files = True),
    },
)
