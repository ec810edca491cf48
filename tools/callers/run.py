"""Running commands, and what stands in README."""
import os
import re
import shutil
import subprocess

from .sources import read

ARCHIVE, BRIDGE = "target/staticlib/libmivtolgya.a", "target/staticlib/libmivtolgya_bridge.a"


def run(*command, status=0, **more):
    """What a command wrote; it must end with this status."""
    done = subprocess.run(command, capture_output=True, text=True, check=False, **more)
    if done.returncode != status:
        raise AssertionError(f"{' '.join(command)}\n{done.stdout}{done.stderr}ended with {done.returncode}, not {status}")
    return done.stdout


def there(tool):
    """Whether a tool is installed and runs: a launcher without its compiler does not count."""
    return bool(shutil.which(tool)) and subprocess.run([tool, "--version"], capture_output=True, check=False).returncode == 0


def expect(what, found, expected):
    if found != expected:
        raise AssertionError(f"{what} wrote\n{found}and not\n{expected}")


def readme_program(language):
    """README's program in a language, and the output that README shows below it."""
    blocks = re.findall(r"```(\w*)\n(.*?)```", read("README.md"), re.S)
    at = next(i for i, (name, _) in enumerate(blocks) if name == language)
    return blocks[at][1], blocks[at + 1][1].split("\n", 1)[1]


def write(folder, name, text):
    path = os.path.join(folder, name)
    with open(path, "w", encoding="utf-8") as out:
        out.write(text)
    return path
