"""Schedules that the benches run, and how a run is timed."""
import os
import shutil
import subprocess
import sys
import tempfile

TOP = os.path.dirname(os.path.dirname(os.path.abspath(__file__)))

# The sources of the program that runs single libraries, and the libraries that it names, as crates.txt lists those of a crate.
SINGLE = os.path.join(TOP, 'bench', 'single')
SINGLE_USES = 'op_types op_outside op_memory op_edge op_frame op_kv op_setup op_node op_core op_pump'


def built_program():
    subprocess.run([os.path.join(TOP, 'omni'), 'build'], stderr=subprocess.DEVNULL)
    return os.environ.get('OMNI', os.path.join(TOP, 'crates', 'omni', 'out', 'omni'))


def is_older(program, *folders):
    """Whether the program is absent, or older than a source in these folders."""
    if not os.path.exists(program):
        return True
    built = os.path.getmtime(program)
    for folder in folders:
        for at, below, names in os.walk(folder):
            below[:] = [it for it in below if it != 'out']
            if any(os.path.getmtime(os.path.join(at, it)) > built for it in names if it.endswith(('.rt', '.antt', '.txt'))):
                return True
    return False


def link_or_copy(one, other):
    try:
        os.link(one, other)
    except OSError:
        shutil.copy2(one, other)


def make_single(copy):
    """Makes the crate op_bench of bench/single beside this checkout's crates and what is built of these, and gives its folder."""
    shutil.copytree(os.path.join(TOP, 'crates'), os.path.join(copy, 'crates'), copy_function=link_or_copy,
                    ignore=shutil.ignore_patterns('incremental', 'must-fail'))
    shutil.copy(os.path.join(TOP, 'HANDLES'), copy)
    with open(os.path.join(TOP, 'crates.txt')) as listed, open(os.path.join(copy, 'crates.txt'), 'w') as file:
        file.write(listed.read() + 'op_bench: %s\n' % SINGLE_USES)
    crate = os.path.join(copy, 'crates', 'op_bench')
    shutil.copytree(SINGLE, crate)
    for at, _, names in os.walk(crate):
        for name in names:
            if name.endswith('.txt'):
                os.rename(os.path.join(at, name), os.path.join(at, name[:-len('.txt')]))
    return crate


def built_bench():
    """The program that runs single libraries. It is no crate of the gate, so its sources have names that the toolchain doesn't read:
    it is proved and built in a folder of its own, over the libraries that are built here, and kept in bench/out."""
    kept = os.path.join(TOP, 'bench', 'out')
    program = os.path.join(kept, 'op_bench')
    if is_older(program, SINGLE, os.path.join(TOP, 'crates')):
        os.makedirs(kept, exist_ok=True)
        with tempfile.TemporaryDirectory(dir=kept) as copy:
            crate = make_single(copy)
            subprocess.run(['rt', 'run', '--', 'frames', '1', '1'], cwd=crate, stdout=subprocess.DEVNULL, stderr=subprocess.DEVNULL)
            shutil.copy2(os.path.join(crate, 'out', 'op_bench'), program)
    return program


def run(program, path):
    """Seconds that the processor worked, and greatest memory (in MB), of one run."""
    with open(path) as text, open(os.devnull, 'w') as out:
        child = subprocess.Popen([program, 'replay'], stdin=text, stdout=out)
        _, status, usage = os.wait4(child.pid, 0)
    if status != 0:
        sys.exit('replay ended with status %d' % os.waitstatus_to_exitcode(status))
    return usage.ru_utime + usage.ru_stime, usage.ru_maxrss / 1024


def best_of(runs, program, write):
    """The best of some runs over the schedule that `write` writes to a file, line by line: so no run starts from a large process."""
    with tempfile.NamedTemporaryFile('w', suffix='.schedule') as file:
        write(file)
        file.flush()
        return min(run(program, file.name) for _ in range(runs))


def put(number):
    return 'put 1 %d %d key%d value%d' % (1 + number % 50, number, number % 1000, number)


def short_put(server, number):
    """So short that a million of them and what comes of them fit into the input."""
    return 'put %d %d %d k v' % (server, 1 + number % 50, number)


def write_sole(file, events):
    print('members 1\ntick 1', file=file)
    for number in range(1, events):
        print(put(number), file=file)


class Cluster:
    """Three members, of which server 1 leads, and both others are synced. `sent` is the number of the next message."""

    def __init__(self, file):
        self.file = file
        self.events = 0
        self.sent = 13
        self.puts = 0
        print('members 1 2 3', file=file)
        for line in ('tick 1', 'deliver 0', 'deliver 2', 'tick 1'):
            self.add(line)
        # Prepares (5, 6), Promises (7, 9), AcceptSyncs (8, 10) and Accepteds (11, 12).
        for number in (5, 7, 6, 9, 8, 10, 11, 12):
            self.deliver(number)

    def add(self, line):
        print(line, file=self.file)
        self.events += 1

    def deliver(self, number):
        self.add('deliver %d' % number)

    def put(self):
        """A put at the leader: an Accept to each follower."""
        self.puts += 1
        self.add(short_put(1, self.puts))
        self.sent += 2
        return self.sent - 2, self.sent - 1

    def accept(self, accept):
        """An Accept at its follower, which sends an Accepted."""
        self.deliver(accept)
        self.sent += 1
        return self.sent - 1

    def trim(self):
        """A wish to trim at the leader: a TrimAsk to each follower."""
        self.add('trim 1')
        self.sent += 2
        return self.sent - 2, self.sent - 1

    def report(self, ask):
        """A TrimAsk at its follower, which sends its Progress."""
        self.deliver(ask)
        self.sent += 1
        return self.sent - 1

    def put_and_deliver(self):
        """A put that is decided at all three."""
        accepted = [self.accept(accept) for accept in self.put()]
        decide = self.sent
        self.deliver(accepted[0])  # a majority has it: a Decide to each follower
        self.deliver(accepted[1])  # nothing new: a Decide again to its sender
        self.sent += 3
        for number in range(decide, self.sent):
            self.deliver(number)

    def forward(self):
        """A put at a follower, which forwards it."""
        self.puts += 1
        self.add(short_put(2, self.puts))
        self.sent += 1
