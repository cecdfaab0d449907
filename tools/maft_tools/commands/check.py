"""Whether the program takes a scenario or a log, and if not, which key or entry is wrong, in words.

    tools/check SCENARIO.json ..
    tools/check --node I LOG.json

A file is - for standard input. The program decides; the words say what stands there and what was expected. Of a log the
node is found by who never sends, where that is one node alone. The status is 0 where all are accepted, else 1.
"""
from __future__ import annotations

from .. import check, json_text, log, program
from ..plan import Json, WordsError
from . import parser, say


def owner(value: Json) -> int:
    """Whose log this is, by who never sends; raises WordsError where that isn't one node alone."""
    found = log.silent(value)
    if found is None:
        # the program says what isn't in order
        return 0
    if len(found) != 1:
        raise WordsError("the file is a log, and its frames don't tell whose; say --node I")
    return found[0]


def words_for(data: bytes, node: int | None) -> list[str]:
    """The words by which the program judges these bytes: as a scenario, or as the log of a node."""
    if node is not None:
        return ["node", str(node)]
    try:
        value = json_text.read(data)
    except json_text.BrokenJson:
        return ["check"]
    return ["node", str(owner(value))] if check.is_log(value) else ["check"]


def judge(path: str, maft: str, node: int | None) -> tuple[bool, str]:
    """Whether the program takes a file, and what there is to say of it."""
    data = json_text.bytes_of(path)
    words = words_for(data, node)
    status, out = program.run(maft, words, data)
    if status:
        return False, program.why_not(data, words, status, out)
    what = f"the log of node {words[1]}" if words[0] == "node" else "a scenario"
    periods = out.rstrip("\n").rsplit("\n", 1)[-1].split(" ")[-1]
    return True, f"accepted: {what} of {periods} period{'' if periods == '1' else 's'}"


def main() -> int:
    """The command; its status is 1 where a file isn't accepted or can't be read."""
    options = parser("check", __doc__ or "")
    options.add_argument("files", nargs="+", metavar="file")
    options.add_argument("--node", type=int, help="the file is the log of this node")
    options.add_argument("--program", help="the program; by default the one that ./maft answers with")
    options.add_argument("--quiet", action="store_true", help="say nothing of what is accepted")
    given = options.parse_args()
    maft, well = program.find(given.program), True
    for path in given.files:
        try:
            is_taken, words = judge(path, maft, given.node)
        except WordsError as error:
            named = json_text.printable(path)
            say("check", str(error) if str(error).startswith(named) else f"{named}: {error}")
            well = False
            continue
        well = well and is_taken
        if not (is_taken and given.quiet):
            print(f"{json_text.printable(path)}: {words}")
    return 0 if well else 1
