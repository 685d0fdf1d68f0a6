"""What the tests of the programs share: the plates that tools/make-samples makes, how a program is started, and the count."""
import importlib.machinery, importlib.util, os, subprocess, sys

sys.dont_write_bytecode = True
os.chdir(os.path.join(os.path.dirname(os.path.abspath(__file__)), ".."))
loader = importlib.machinery.SourceFileLoader("samples", "tools/make-samples")
made = importlib.util.module_from_spec(importlib.util.spec_from_loader("samples", loader))
loader.exec_module(made)


class Checks:
    """Counts what was compared, and names each thing at fault; with FIRST in the environment it ends at the first."""

    def __init__(self):
        self.passed = self.failed = 0

    def expect(self, what, said, wanted=True):
        if said == wanted:
            self.passed += 1
        else:
            self.failed += 1
            print(f"FAILED {what}: {said!r:.300}, and wanted {wanted!r:.300}")
            if "FIRST" in os.environ:
                self.end()

    def end(self):
        print(f"{self.passed} passed, {self.failed} failed")
        sys.exit(self.failed > 0 or self.passed == 0)


def program(name):
    return ["tools/run", f"crates/{name}/out/{name}"]


def run(command, data):
    """What a program writes to standard output and to standard error."""
    done = subprocess.run(command, input=data, capture_output=True, check=True)
    return done.stdout, done.stderr


def sample(name):
    with open(f"samples/{name}.plate", "rb") as file:
        return file.read()


def samples():
    return sorted(name[:-6] for name in os.listdir("samples") if name.endswith(".plate"))
