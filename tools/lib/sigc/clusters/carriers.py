"""What carries items between clusters: the files of a carrier, and the scripts that build it and run it."""
from sigc.clusters import cluster_files

# The files of each carrier, which are copied, and what its scripts are.
CARRIERS = {
    "threads": (("threads.c",), "threads.build", None),
    "mpi": (("process.h", "process.c", "mpi.c"), "mpi.build", "mpi.run"),
    "dds": (("process.h", "process.c", "dds.c", "link.idl", "loopback.xml"), "dds.build", "dds.run"),
}
SCRIPTS = ("build", "run")
SHARED = ("flows.h", "flows.c", "deal.h", "touching.h")


def files_of(unit, carrier):
    """The files of a program with its carrier: their texts by their names."""
    found = {f"{unit.stem}_clusters.h": unit.header(), f"{unit.stem}_clusters.c": unit.unit(), "program.h": unit.known(), "program.c": unit.glue()}
    names, build, run = CARRIERS[carrier]
    for name in (*SHARED, "end_line.c", *names):
        found[name] = cluster_files.text_of(name)
    found["build"] = cluster_files.text_of(build, **unit.words, units=f"{unit.stem}_clusters.c", end_file="end_line.c")
    if run:
        found["run"] = cluster_files.text_of(run, **unit.words, actors=len(unit.steps), clusters=len(unit.clusters))
    return found
