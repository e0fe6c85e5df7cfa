"""Measures `why` of build/salimgub beside `link`, and says PASS or FAIL to each target."""

import os

import bench
import trees


def name(number):
    """The path of a module of the shared tree."""
    return "/app.mjs" if number == 0 else f"/m{number}.mjs"


def chain(number):
    """What is said of the module with this number. Each module asks for the next ten: so the shortest chain has a tenth
    as many steps, rounded up, and of several the least has one short step, the first."""
    steps = -(-number // 10)
    stands = [0] * (steps > 0)
    for step in range(steps):
        ahead = number - 10 * (steps - 1) if step == 0 else 10
        stands.append(stands[-1] + ahead)
    lines = ['page "/index.html"\n', 'asks "./app.mjs" gets "/app.mjs"\n']
    lines += [f'asks ".{name(at)}" gets "{name(at)}"\n' for at in stands[1:]]
    return "".join(lines)


def measure(work, modules, slack, tries):
    """Measures the shortest chains to the last module and to none, over ten requests of each module, by turns with
    `link`. A trace has to be made for both; `why` prints no map and takes no digests."""
    label = f"of {modules} modules"
    tree = trees.shared(os.path.join(work, f"shared-{modules}"), modules)
    bench.link(tree, 1)
    asked = {
        "the last module": (name(modules - 1), 0, chain(modules - 1)),
        "a file that isn't reached": ("/q.mjs", 10, 'not reached: "/q.mjs"\n'),
    }
    linked, told = [], {what: [] for what in asked}
    for _ in range(tries):
        linked.append(bench.link(tree, 1))
        for what, (path, status, wanted) in asked.items():
            run = bench.Run([bench.PROGRAM, "why", path], tree.folder)
            if run.status != status or run.out != wanted:
                bench.say(False, f"why {path} {label}: status {run.status}, out {run.out[:200]!r}, "
                                 f"wanted {wanted[:200]!r}")
            told[what].append(run)
    by_link = min(linked, key=lambda run: run.seconds)
    for what, runs in told.items():
        run = min(runs, key=lambda run: run.seconds)
        bench.say(run.seconds <= max(1.1 * slack * by_link.seconds, bench.NOISE),
                  f"why, {what} {label}: {run.times()}, {run.seconds / by_link.seconds:.2f} times as long as link, "
                  f"{by_link.times()}, at most {1.1 * slack:g}; {run.memory / bench.MIB:.1f} MiB beside "
                  f"{by_link.memory / bench.MIB:.1f} MiB")


def measure_both(work):
    measure(work, 20000, 1, 5)


def measure_small(work):
    measure(work, 2000, 10, 2)


if __name__ == "__main__":
    bench.all_measured("why", measure_small if bench.is_smoke("python3 -B bench/why.py") else measure_both)
