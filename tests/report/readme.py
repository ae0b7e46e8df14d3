"""What the README's first page says of its example: the picture is the report's, and so are the numbers."""
import os
import re
import tempfile

import runs

REPOSITORY = os.path.join(os.path.dirname(os.path.abspath(__file__)), "..", "..")


def checks():
    """A name for each check, and what is wrong."""
    with open(os.path.join(REPOSITORY, "README.md"), encoding="utf-8") as file:
        readme = file.read()
    with open(os.path.join(REPOSITORY, "docs", "primates.svg"), "rb") as file:
        picture = file.read()
    examples = [os.path.join(REPOSITORY, "report", "examples", f"primates.run{number}.t") for number in (1, 2)]
    with tempfile.TemporaryDirectory() as folder:
        made = os.path.join(folder, "primates")
        run = runs.command("report", *examples, "-o", made, "--burn-in", "25%")
        files = runs.files_in(made)
    yield "the example", f"{run}" if run.status or run.errors else ""
    yield "docs/primates.svg", "" if files.get("graph.svg") == picture else "not the graph.svg of the example"
    said = re.search(r"Of (\d+) trees it shows (\d+) topologies, (one) island, and (\d+) pairs, (\d+) of them", readme)
    counted = re.search(
        r"(\d+) of them behind .*\n.*, (\d+) of them in .*\npairs: (\d+), (\d+) of them interchanges\nislands: (\d+)\n", run.out)
    counted = [*counted.groups()] if counted else []
    stated = [said[1], said[2], said[4], said[5], {"one": "1"}[said[3]]] if said else []
    yield "the numbers in README.md", "" if stated == counted else f"{stated}, not {counted}"
