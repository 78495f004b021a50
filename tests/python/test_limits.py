"""Limits: which numbers they may be, and what they refuse."""

import oascanon
import pytest
from oascanon import Limits


def test_the_two_that_have_names():
    assert Limits.STANDARD == Limits(elements=2**24, weight=2**28, input=2**36)
    assert Limits.LARGE == Limits(elements=2**26, weight=2**30, input=2**38)


TOO_MUCH = [(2**26 + 1, 0, 320), (0, 2**30 + 1, 2**38), (0, 0, 2**38 + 1)]


@pytest.mark.parametrize("numbers", [*TOO_MUCH, (0, 0, 319), (0, 1, 383), (-1, 0, 320)])
def test_numbers_that_are_no_limits(numbers):
    with pytest.raises(ValueError):
        Limits(*numbers)


@pytest.mark.parametrize("numbers", [(2**26, 2**30, 2**38), (0, 0, 320), (0, 1, 384)])
def test_the_library_takes_those_at_the_edges(numbers):
    with pytest.raises(oascanon.Refused) as caught:
        oascanon.key(b"", limits=Limits(*numbers))
    assert caught.value.number == 2


@pytest.mark.parametrize("numbers", [("1", 1, 400), (1, 1.0, 400), (1, 1, None)])
def test_numbers_of_other_types(numbers):
    with pytest.raises(TypeError):
        Limits(*numbers)


def test_limits_are_of_their_type(top):
    for limits in (None, (1, 1, 400), 7):
        with pytest.raises(TypeError):
            oascanon.key(top / "examples/rectangle.oas", limits=limits)


def test_one_element_too_many(top):
    file = top / "examples/rectangle.oas"
    for call in (oascanon.key, oascanon.canonicalize, oascanon.check, oascanon.read):
        call(file, limits=Limits(elements=1, weight=3, input=512))
        for numbers, number in (((0, 3, 512), 24), ((1, 2, 512), 25)):
            with pytest.raises(oascanon.Refused) as caught:
                call(file, limits=Limits(*numbers))
            assert (caught.value.number, caught.value.offset) == (number, 37)
