"""Programs that are stopped before one of their calls of the file system, for disturbed.py, one_at_a_time.py and
saves.py."""
import os, pathlib, shutil, signal, subprocess

LONGEST = 60  # seconds that a build may take


def library(folder):
    """The library that stops a program, made in a folder."""
    made = f"{folder}/moments.so"
    source = pathlib.Path(__file__).with_name("moments.c")
    subprocess.run(["gcc", "-O2", "-shared", "-fPIC", "-o", made, source], check=True)
    return made


class Program:
    def __init__(self, path, folder):
        self.path, self.library = str(pathlib.Path(path).resolve()), library(folder)

    def start(self, folder, words, **given):
        """Starts it in a folder; what it prints goes to a file next to that, which the process keeps."""
        printed = open(f"{folder}.printed", "w+")
        more = {name: str(value) for name, value in given.items()}
        process = subprocess.Popen([self.path, *words], cwd=folder, stdout=printed, stderr=subprocess.STDOUT,
                                   env=os.environ | {"LD_PRELOAD": self.library} | more)
        process.printed = printed
        return process

    def run(self, folder, words):
        """Its status and what it printed."""
        return ended(self.start(folder, words))

    def calls(self, folder, words):
        """A line for each call of the file system that a run makes."""
        listed = pathlib.Path(f"{folder}.calls")
        status, text = ended(self.start(folder, words, MOMENTS=listed))
        assert status == 0, text
        return listed.read_text().splitlines()

    def stopped(self, folder, words, moment):
        """The process, stopped before this call, counted from 1; none if it ended before."""
        process = self.start(folder, words, MOMENT=moment)
        _, status = os.waitpid(process.pid, os.WUNTRACED)
        if os.WIFSTOPPED(status):
            return process
        process.returncode = os.waitstatus_to_exitcode(status)
        process.printed.close()
        return None


def ended(process):
    """The status of a process that goes to its end, and what it printed."""
    process.wait(LONGEST)
    with process.printed as printed:
        printed.seek(0)
        return process.returncode, printed.read()


def go_on(process):
    process.send_signal(signal.SIGCONT)
    return ended(process)


def files(folder):
    """The files under a folder: the contents of each path."""
    folder = pathlib.Path(folder)
    return {str(it.relative_to(folder)): it.read_bytes() for it in folder.rglob("*") if it.is_file()}


def put(path, text):
    path = pathlib.Path(path)
    path.parent.mkdir(parents=True, exist_ok=True)
    path.write_text(text)


def texts(count):
    """A script of tasks that each write the value of `v`, and one that needs them all."""
    lines = []
    for it in range(count):
        made = f'outputFile out = file("build/{it}")'
        lines.append(f'register t{it} : writeText(gradleProperty("v")) {{ {made} }}')
    named = ", ".join(f'"t{it}"' for it in range(count))
    return "\n".join(lines) + f"\nregister all {{ dependsOn {named} }}\n"


def renew(folder, origin):
    """Makes a folder again as a copy of another one."""
    shutil.rmtree(folder, ignore_errors=True)
    shutil.copytree(origin, folder)
