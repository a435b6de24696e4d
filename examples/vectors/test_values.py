import json
import pathlib

from bcs_proved import BytesError, Registry
from hypothesis import HealthCheck, given, settings, strategies as st
from my_sdk import types

# the same values in each run, and as much time as recursive types need
settings.register_profile("vectors", derandomize=True, deadline=None, suppress_health_check=list(HealthCheck))
settings.load_profile("vectors")


def leaf(word):
    if word[0] in "UI" and word[1:].isdigit():
        bits = int(word[1:])
        low, high = (0, 2**bits) if word[0] == "U" else (-(2 ** (bits - 1)), 2 ** (bits - 1))
        return st.integers(low, high - 1).map(lambda number: number if bits < 64 else str(number))
    return {"UNIT": st.none(), "BOOL": st.booleans(), "STR": st.text(), "BYTES": st.binary().map(bytes.hex)}[word]


def values(registry):
    made = {}

    def of(format):
        if isinstance(format, str):
            return leaf(format)
        ((kind, inner),) = format.items()
        if kind == "TYPENAME":
            return made.setdefault(inner, st.deferred(lambda: content(registry[inner])))
        if kind == "OPTION":
            return st.none() | of(inner).map(lambda value: {"some": value})
        if kind == "TUPLE":
            return st.tuples(*map(of, inner)).map(list)
        if kind == "MAP":
            entry = st.tuples(of(inner["KEY"]), of(inner["VALUE"])).map(list)
            return st.lists(entry, max_size=5, unique_by=lambda entry: json.dumps(entry[0], sort_keys=True))
        item, size = (inner["CONTENT"], inner["SIZE"]) if kind == "TUPLEARRAY" else (inner, None)
        if item == "U8":
            return st.binary(min_size=size or 0, max_size=20 if size is None else size).map(bytes.hex)
        return st.lists(of(item), min_size=size or 0, max_size=5 if size is None else size)

    def content(held):
        if isinstance(held, str):
            return st.none()
        ((kind, inner),) = held.items()
        if kind.startswith("NEWTYPE"):
            return of(inner)
        if kind.startswith("TUPLE"):
            return st.tuples(*map(of, inner)).map(list)
        if kind == "STRUCT":
            return st.fixed_dictionaries({name: of(format) for field in inner for name, format in field.items()})
        variants = [variant for number in inner.values() for variant in number.items()]
        return st.one_of(
            st.just(name) if payload == "UNIT" else st.fixed_dictionaries({name: content(payload)})
            for name, payload in variants
        )

    return {name: of({"TYPENAME": name}) for name in registry}


path = pathlib.Path("registry.json")
registry, strategies = Registry(path), values(json.loads(path.read_text()))


@given(st.sampled_from(sorted(strategies)).flatmap(lambda name: st.tuples(st.just(name), strategies[name])))
def test_bytes(drawn):
    name, value = drawn
    assert types[name].from_json(value).to_bytes() == registry.encode_json(name, json.dumps(value))


@given(st.sampled_from(sorted(strategies)), st.binary(max_size=40))
def test_verdicts(name, data):
    try:
        types[name].from_bytes(data)
        is_refused = False
    except ValueError:
        is_refused = True
    try:
        registry.decode(name, data)
        assert not is_refused
    except BytesError as refusal:
        assert is_refused or refusal.place is None  # nested too deep for JSON
