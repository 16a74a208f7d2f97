"""Runs the function main of a module of this folder: start_module.py MODULE SHIM [WORD ..]. Modules are compiled once, and
this text at each start, by older interpreters too."""
import gc, sys

sys.path.insert(0, sys.argv[0].rpartition("/")[0])
module = sys.argv[1]
oldest = {"vunit_lsp": (3, 11)}.get(module, (3, 9))
if sys.version_info < oldest:
    __import__("old_python").hand_over(oldest, *sys.argv[1:])
del sys.argv[1:3]
# (nothing here holds itself, and looking for such things takes longer than a start of the keeper)
gc.disable()
__import__(module).main()
