"""The crates of the repository, as `crates.txt` lists them."""


def lists() -> dict[str, list[str]]:
    """Returns what each crate uses, by its name."""
    with open("crates.txt", encoding="utf-8") as file:
        lines = [line for line in file.read().splitlines() if ":" in line and line[0] != "#"]
    return {line.split(":")[0].split()[0]: line.split(":")[1].split() for line in lines}


def crates() -> list[str]:
    """Returns the names of the crates, lowest first."""
    return with_below(list(lists()))


def with_below(names: list[str]) -> list[str]:
    """Returns crates and all crates that they use, lowest first, without those of the toolchain."""
    below = lists()
    done: list[str] = []

    def visit(name: str) -> None:
        for low in below.get(name, []):
            visit(low)
        if name in below and name not in done:
            done.append(name)

    for name in names:
        visit(name)
    return done
