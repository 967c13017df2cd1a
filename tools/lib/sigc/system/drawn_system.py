"""A system as a graph for Graphviz: its inputs and outputs, its instances, and what goes from one to another."""


def quoted(text):
    return '"' + text.replace("\\", "\\\\").replace('"', '\\"') + '"'


def graph(system):
    """The lines of the graph. Instances of a count are one box."""
    yield from (f"digraph {system.name} {{", "  rankdir=LR;", "  node [shape=box fontname=monospace];", "  edge [fontname=monospace fontsize=10];")
    for it in (*system.inputs, *system.outputs):
        yield f"  {quoted(it.name)} [shape=plaintext label={quoted(it.name + counted(it.count))}];"
    for it in system.instances:
        yield f"  {quoted(it.name)} [label={quoted(it.name + counted(it.count))} tooltip={quoted(it.file)}];"
    edges = {}
    for it in system.instances:
        for source in it.sources:
            edges.setdefault((source.name, it.name), []).append(label_of(source))
    for it in system.joined:
        edges.setdefault((it.source.name, it.name), []).append(label_of(it.source))
    for (writer, reader), labels in edges.items():
        told = ", ".join(dict.fromkeys(filter(None, labels)))
        yield f"  {quoted(writer)} -> {quoted(reader)}{f' [label={quoted(told)}]' if told else ''};"
    yield "}"


def counted(count):
    return "" if count is None else f"[{count}]"


def label_of(source):
    """What an edge carries: the output, with an index where one is taken of many."""
    index = "" if source.index is None else f"[{source.index}]"
    return f"{index}.{source.output}" if source.index is not None and source.output else source.output or index
