"""A small library in C that takes the place of functions of the C library in a program that is run with it."""
import os
import subprocess

COMPILER = os.environ.get("RATTLE_CLANG", "/opt/rattle/toolchain/bin/clang")
HEAD = r"""
extern void *dlsym(void *library, const char *name);
extern char *getenv(const char *name);
extern long atol(const char *text);

/* the function of this name in the libraries that are loaded after this one */
static void *next(const char *name) {
    return dlsym((void *)-1L, name);
}

/* the number that the environment gives by this name, or 0 */
static long number(const char *name) {
    const char *text = getenv(name);
    return text ? atol(text) : 0;
}
"""


def built(folder, source):
    """The library of a source in C, after HEAD, built in a folder by the kit's compiler."""
    library = f"{folder}/preload.so"
    words = [COMPILER, "-shared", "-fPIC", "-O1", "-x", "c", "-o", library, "-"]
    subprocess.run(words, input=(HEAD + source).encode(), check=True)
    return library
