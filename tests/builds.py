"""What happens in a made session: builds that keep to their rules, mostly, and chaos.

Each is a coroutine over the world that yields after each thing that it does, so that several can be interleaved.
"""

from __future__ import annotations

from collections.abc import Iterator
from dataclasses import dataclass

from tests.world import Enough, Gone, Process, World

Course = Iterator[None]


def interleave(world: World, courses: list[Course], steady: float) -> None:
    """Runs the courses until the log is long enough or all are over. `steady` is how often the same one goes on."""
    at = 0
    try:
        while courses:
            if at >= len(courses) or not world.chance(steady):
                at = world.random.randrange(len(courses))
            try:
                next(courses[at])
            except (StopIteration, Gone):
                del courses[at]
    except Enough:
        pass


# Builds


@dataclass(frozen=True)
class Manners:
    """How well a build keeps to its rules."""

    order: float = 0.95
    """How often a target waits for its prerequisites."""
    inputs: float = 0.9
    """How often a step reads only what its prerequisites made."""
    nesting: float = 0.25
    """How often a step runs a make."""
    jobs: int = 3
    deepest: int = 5
    patient: float = 0.9
    """How often a make waits for its steps before it dies, and a step for its children."""


def build(world: World, manners: Manners, parent: Process | None = None, level: int = 1) -> Course:
    """A make with targets, from the birth of its own process to its death."""
    own = world.birth(parent)
    yield
    if world.chance(0.5):
        world.read(own, world.some_path())
        yield
    if not world.make(own):
        world.death(own)
        return
    yield
    assert own.make is not None
    outputs: dict[int, bytes] = {}
    for _ in range(world.random.randint(1, 7)):
        target = world.target(own, world.some_prerequisites(own.make))
        outputs[target] = world.some_path()
        yield
    yield from run_targets(world, manners, own, outputs, level)
    if world.chance(0.3):
        world.read(own, world.some_path())
        yield
    world.death(own)


def builds_in_a_row(world: World, manners: Manners) -> Course:
    """One build after the other, while there is room for makes."""
    while world.makes < 60:
        yield from build(world, manners)


def run_targets(world: World, manners: Manners, own: Process, outputs: dict[int, bytes], level: int) -> Course:
    """Starts the targets of a make, some at a time, and waits for them."""
    assert own.make is not None
    waiting, done = list(outputs), []
    running: list[tuple[int, Course]] = []
    while waiting or running:
        ready = [t for t in waiting if all(p in done for p in own.make.targets[t - 1])]
        if not ready or not world.chance(manners.order):
            ready = waiting
        if ready and (not running or (len(running) < manners.jobs and world.chance(0.5))):
            target = world.random.choice(ready)
            waiting.remove(target)
            running.append((target, run_target(world, manners, own, target, outputs, level)))
        target, course = world.random.choice(running)
        try:
            next(course)
        except (StopIteration, Gone):
            running.remove((target, course))
            done.append(target)
        if running and not waiting and not world.chance(manners.patient ** (1 / 8)):
            return
        yield


def run_target(
    world: World, manners: Manners, own: Process, target: int, outputs: dict[int, bytes], level: int
) -> Course:
    """The steps of one target, one after the other, or now and then two at once."""
    for _ in range(world.random.choice([1, 1, 2, 3])):
        steps = [run_step(world, manners, own, target, outputs, level)]
        if world.chance(0.15):
            steps.append(run_step(world, manners, own, target, outputs, level))
        while steps:
            step = world.random.choice(steps)
            try:
                next(step)
            except (StopIteration, Gone):
                steps.remove(step)
            yield


def run_step(
    world: World, manners: Manners, own: Process, target: int, outputs: dict[int, bytes], level: int
) -> Course:
    """One step: it looks for its directory, reads what it needs, makes what it is for, and may run others."""
    assert own.make is not None
    process = world.birth(own, target)
    yield
    output = outputs[target]
    for inside in directories_of(output):
        if world.chance(0.3):
            if inside in world.links:
                world.exists(process, inside)
            else:
                world.write(process, inside)
            yield
    needed = [outputs[p] for p in own.make.targets[target - 1] if p in outputs]
    for _ in range(world.random.randint(0, 3)):
        kept = needed and world.chance(manners.inputs)
        world.read(process, world.random.choice(needed) if kept else world.some_path())
        yield
    if level < manners.deepest and world.chance(manners.nesting):
        inner = build(world, manners, process, level + 1)
        if world.chance(0.2):
            inner = together(world, inner, build(world, manners, process, level + 1))
        if world.chance(manners.patient):
            yield from inner
        else:
            yield from abandoned(world, inner)
    if world.chance(0.3):
        yield from run_child(world, manners, process)
    world.write(process, output)
    yield
    if world.chance(0.15):
        world.remove(process, output, world.chance(0.6))
        yield
        if world.chance(0.6):
            world.write(process, output)
            yield
    if world.chance(0.08) and world.post(process):
        yield
    world.death(process)


def run_child(world: World, manners: Manners, parent: Process) -> Course:
    """A child with target 0, which may be left behind."""
    child = world.birth(parent)
    yield
    for _ in range(world.random.randint(0, 3)):
        use_file(world, child)
        yield
    if world.chance(manners.patient):
        world.death(child)


def together(world: World, *courses: Course) -> Course:
    left = list(courses)
    while left:
        course = world.random.choice(left)
        try:
            next(course)
        except (StopIteration, Gone):
            left.remove(course)
        yield


def abandoned(world: World, course: Course) -> Course:
    """Goes on with the course for a while and then leaves it, with its processes alive."""
    for _ in range(world.random.randint(0, 30)):
        try:
            next(course)
        except (StopIteration, Gone):
            return
        yield


def directories_of(path: bytes) -> list[bytes]:
    parts = path.split(b"/")[1:-1]
    return [b"/" + b"/".join(parts[: count + 1]) for count in range(len(parts))]


# Chaos


def use_file(world: World, process: Process) -> None:
    path = world.some_path()
    kind = world.random.choices("RWKU", [40, 25, 12, 10])[0]
    if kind == "R":
        world.read(process, path)
    elif kind == "W":
        world.write(process, path)
    elif kind == "K":
        world.exists(process, path)
    else:
        world.remove(process, path, world.chance(0.5))


@dataclass(frozen=True)
class Weights:
    """How often each thing happens in chaos."""

    birth: int = 6
    step: int = 14
    make: int = 5
    target: int = 10
    death: int = 14
    use: int = 45
    post: int = 2
    await_flag: int = 3
    deepest: int = 16


def chaos(world: World, weights: Weights) -> Course:
    """Whatever may be done, without end."""
    things = ["birth", "step", "make", "target", "death", "use", "post", "await_flag"]
    shares = [getattr(weights, thing) for thing in things]
    while True:
        if not world.live:
            world.birth(None)
        thing = world.random.choices(things, shares)[0]
        try:
            happen(world, thing, weights)
        except Gone:
            continue
        yield


def happen(world: World, thing: str, weights: Weights) -> None:
    if thing == "birth":
        world.birth(world.someone() if world.chance(0.8) else None)
    elif thing == "step":
        own = world.some_make()
        assert own.make is not None
        if own.make.targets:
            world.birth(own, world.random.randint(1, len(own.make.targets)))
    elif thing == "make":
        process = world.someone()
        if process.depth < weights.deepest:
            world.make(process)
    elif thing == "target":
        own = world.some_make()
        assert own.make is not None
        world.target(own, world.some_prerequisites(own.make))
    elif thing == "death":
        world.death(world.someone())
    elif thing == "use":
        use_file(world, world.someone())
    elif thing == "post":
        world.post(world.someone())
    else:
        world.await_flag(world.someone())


def relays(world: World) -> Course:
    """Work is handed on by flags through several processes: use, post, await, post, await, use.

    Who awaits and who posts next is mostly the same process, or a child of it, at the same place or at a step."""
    while len(world.posted) < 32 and world.awaits < 32:
        runner = world.someone()
        path = world.some_path()
        world.write(runner, path)
        yield
        for _ in range(world.random.choice([1, 1, 2, 3, 4])):
            runner = successor(world, runner)
            if not world.post(runner):
                return
            flag = world.posted[-1]
            yield
            runner = world.someone()
            if not world.await_flag(runner, flag):
                return
            yield
        runner = successor(world, runner)
        if world.chance(0.7):
            world.read(runner, path)
        else:
            world.remove(runner, path, world.chance(0.5))
        yield


def successor(world: World, runner: Process) -> Process:
    """Who goes on for a process: itself, a child, a step of a make that it bears, or anyone."""
    if not runner.alive or world.chance(0.15):
        return world.someone()
    if world.chance(0.6):
        return runner
    child = world.birth(runner)
    if world.chance(0.4) and world.make(child):
        return world.birth(child, world.target(child, []))
    return child


def dive(world: World, levels: int) -> Course:
    """Makes inside makes, straight down, then uses of files at all levels, then deaths in any order."""
    line: list[Process] = []
    process = world.birth(None)
    yield
    for _ in range(levels):
        if not world.make(process):
            break
        yield
        line.append(process)
        assert process.make is not None
        for _ in range(world.random.randint(1, 3)):
            world.target(process, world.some_prerequisites(process.make))
            yield
        process = world.birth(process, world.random.randint(1, len(process.make.targets)))
        yield
    line.append(process)
    for _ in range(40):
        own = world.random.choice(line)
        if own.alive and own.make is not None and own.make.targets and world.chance(0.3):
            line.append(world.birth(own, world.random.randint(1, len(own.make.targets))))
        elif own.alive and world.chance(0.1):
            world.death(own)
        elif own.alive:
            use_file(world, own)
        yield


def orphans(world: World) -> Course:
    """A make dies before its steps, its number returns, and what the steps did is used when they are over."""
    while True:
        parent = world.someone() if world.live and world.chance(0.7) else None
        own = world.birth(parent)
        yield
        if not world.make(own):
            world.death(own)
            return
        yield
        target = world.target(own, [])
        yield
        steps = [world.birth(own, target) for _ in range(world.random.randint(1, 2))]
        yield
        paths = [world.some_path() for _ in steps]
        for step, path in zip(steps, paths):
            world.write(step, path)
            yield
        world.death(own)
        yield
        heir = world.birth(parent if parent is not None and parent.alive else None, number=own.number)
        yield
        if world.chance(0.4):
            world.make(heir)
            yield
        for step in steps:
            if step.alive and world.chance(0.9):
                world.death(step)
                yield
        users = [process for process in (heir, parent) if process is not None and process.alive]
        if users:
            world.read(world.random.choice(users), world.random.choice(paths))
            yield
        if heir.alive and world.chance(0.6):
            world.death(heir)
            yield


# Stages


def stages(world: World, stages_used: list[int], rising: bool, lifetime: float) -> Course:
    """Births in stages, uses of files, deaths. If rising, later births tend to later stages."""
    stage_at = 0
    while True:
        if not world.live or world.chance(0.12):
            if rising and world.chance(0.5):
                stage_at = min(stage_at + 1, len(stages_used) - 1)
            near = [min(max(stage_at + by, 0), len(stages_used) - 1) for by in (-1, 0, 0, 0, 1)]
            stage = stages_used[world.random.choice(near)] if rising else world.random.choice(stages_used)
            world.birth(None, stage)
        elif world.chance(lifetime):
            world.death(world.someone())
        else:
            use_file(world, world.someone())
        yield
