"""What a check kept of a crate: its modules, and how long the checker took for each."""
import os


def kept_in(folder):
    """The time and the name of each module that is kept below the folder, in the order of their times."""
    times = []
    for at, _, names in os.walk(folder):
        for name in names:
            if name.endswith(".oantt"):
                try:
                    times.append((os.lstat(os.path.join(at, name)).st_mtime, name))
                except FileNotFoundError:
                    pass
    return sorted(times)


def seconds_of(crate, times):
    """The modules of a crate with the seconds between the one before and each, the slowest first."""
    spent = [(later - earlier, name) for (earlier, _), (later, name) in zip(times, times[1:])]
    plain = [(seconds, name.removeprefix(f"Rattle-{crate}-").removesuffix(".oantt").removesuffix(".decls")) for seconds, name in spent]
    return sorted(plain, reverse=True)


def functions_of(crate, times):
    """The functions of a crate with the seconds of all their modules, the slowest first."""
    sums = {}
    for seconds, module in seconds_of(crate, times):
        if module.startswith("proofs.") and "." in module[len("proofs."):]:
            function = module.removeprefix("proofs.").rpartition(".")[0]
            sums[function] = sums.get(function, 0) + seconds
    return sorted(((seconds, function) for function, seconds in sums.items()), reverse=True)
