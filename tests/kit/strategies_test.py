"""The strategies for Hypothesis: what they draw is answered by the library as by the second hand. Where the environment
names a PROGRAM, that answers in place of the library. `/usr/bin/python3 -m pytest tests/kit` runs it."""

import os
import tomllib
from contextlib import closing

import places
from hypothesis import HealthCheck, given, settings
from hypothesis import strategies as st
from pciguest import transcript
from pciguest._board_file import functions
from pciguest._driven import Library, Program
from pciguest._judge import findings
from pciguest.strategies import PLAIN, boards, firmware, scripts
from second_hand import SecondHandBoard, board_of

(answers,) = places.modules("fuzz", "answers")
(registers,) = places.modules("firmware", "registers")

PROGRAM = os.environ.get("PROGRAM")
MAKER = Program(PROGRAM) if PROGRAM else Library()
settings.register_profile("kit", max_examples=100, deadline=None, database=None, derandomize=True,
                          suppress_health_check=list(HealthCheck))
settings.load_profile("kit")


@given(boards())
def test_boards_can_be_set_up(board):
    assert MAKER.refusal(board) is None


@given(boards(bridges=0, apertures=[PLAIN], guests=False))
def test_options(board):
    assert "[[bridge]]" not in board and "[[guest]]" not in board and "pref = [" not in board


@given(st.data())
def test_scripts(data):
    board = data.draw(boards())
    lines = data.draw(scripts(board))
    world = answers.World(board_of(tomllib.loads(board)))
    back_end = transcript.Process([PROGRAM]) if PROGRAM else transcript.Library()
    section = transcript.record(back_end, "run", board, "board.toml", "drawn", lines)
    told = [world.answer(line.encode()) for line in lines]
    assert [reply for _, reply in section.rows] == [reply for reply in told if reply is not None]


@given(st.data())
def test_firmware(data):
    board = data.draw(boards(guests=False))
    document = tomllib.loads(board)
    second = SecondHandBoard(document)
    with closing(MAKER.board(board)) as first:
        for line in data.draw(firmware(board)):
            reply, other = first.run_line(line), second.run_line(line)
            if reply and line.split()[1:2] in (["cr"], ["cw"]) and "refused" not in reply:
                assert reply == other, line
        assert findings(first) == findings(second)
        cells = registers.of_all(first, document)
        for one in functions(document):
            state = second.state.read_bytes(one.path, 0, 256).to_bytes(256, "little")
            assert cells[one.at] == state, one.at
