"""The parts `python`, `go` and `java`: the modules of other languages over the libraries."""

import os
import re
import shutil

from emulator import C, COMPILER, EMULATOR, ROOT, Bench, fail, passed, rows, run, unpack_debian, words


def test_python(bench: Bench) -> None:
    """The module of Python over libbcs.so, and the extension of SQLite over libbcs.a."""
    unpack_debian(bench.room / "python", "python3")
    python = words("qemu-aarch64-static", "-L", bench.room / "python", bench.room / "python/usr/bin/python3")
    library = f"BCS_LIBRARY={bench.built}/libbcs.so"
    driver = ROOT / "bindings/python/tests/driver.py"
    rows("Python", "--without", "changes", "arm64-python", "env", library, *python, driver)
    variables = {"BCS_LIB": str(bench.built), "CC": f"{COMPILER} -idirafter /usr/include"}
    run("the extension of SQLite", words(ROOT / "bindings/sqlite/build.sh", bench.room), variables=variables)
    command = words(*python, ROOT / "bindings/sql/driver.py", "sqlite", bench.room / "bcs_sqlite.so")
    rows("SQLite", "--without", "changes", "arm64-sqlite", *command)


def test_go(bench: Bench) -> None:
    """The module of Go, cross-compiled, over libbcs.a."""
    module = bench.room / "module"
    shutil.copytree(ROOT / "bindings/go", module)
    shutil.copy(C / "include/bcs.h", module)
    shutil.copy(bench.built / "libbcs.a", module / "libbcs_linux_arm64.a")
    variables = {
        **{"GOPROXY": "off", "GOFLAGS": "-mod=mod", "GOTOOLCHAIN": "local", "GOPATH": f"{bench.room}/path"},
        **{"GOARCH": "arm64", "CGO_ENABLED": "1", "CC": COMPILER},
    }
    program, tests = bench.room / "go", bench.room / "go_tests"
    run("go build", words("go", "build", "-o", program, "./driver"), folder=module, variables=variables)
    run("go test -c", words("go", "test", "-c", "-o", tests, "."), folder=module, variables=variables)
    # Two tests start themselves as another process, which the emulator can't do. TestDefaultLimits does so, too, for a
    # limit of memory that the emulator ignores, so it runs in this process.
    listed = run("the list of the tests of Go", words(*EMULATOR, tests, "-test.list", "."), folder=module).split()
    names = [name for name in listed if name not in ("TestStack", "TestMemory")]
    command = words(*EMULATOR, tests, "-test.v", "-test.run", f"^({'|'.join(names)})$")
    variables = {"BCS_EXAMPLES": f"{ROOT}/examples", "BCS_TEST_LIMITS": "1"}
    output = run("the tests of Go", command, folder=module, variables=variables)
    if len(re.findall(r"^--- PASS", output, re.MULTILINE)) != len(names) or len(names) < 11:
        fail(f"too few tests of Go ran: {' '.join(names)}")
    passed(f"Go: {len(names)} tests")
    rows("Go", "--without", "changes", "arm64-go", *EMULATOR, program)


def test_java(bench: Bench) -> None:
    """The jar for Java, with the native library for arm64 in it."""
    unpack_debian(bench.room / "debian", "openjdk-17-jre-headless")
    made = bench.room / "java"
    prefix = os.environ.get("BCS_PREFIX") or C / "out"
    options = words("--prefix", prefix, "--arm64", bench.built, "--out", made)
    run("the jar", words(ROOT / "bindings/java/build.sh", *options))
    jar = made / "bcsproved.jar"
    sources = [*sorted((ROOT / "bindings/java/tests").glob("*.java")), ROOT / "examples/wallet/Wallet.java"]
    run("javac", words("javac", "--release", "17", "-cp", jar, "-d", made, *sources))
    temporary = bench.room / "temporary"
    temporary.mkdir()
    machine = bench.room / "debian"
    java = words("qemu-aarch64-static", "-L", machine, machine / "usr/lib/jvm/java-17-openjdk-arm64/bin/java")
    java += ["-XX:+UseSerialGC", f"-Djava.io.tmpdir={temporary}", "-cp", f"{jar}:{made}"]
    if run("the wallet in Java", [*java, "Wallet", f"{ROOT}/examples"]) != wallet():
        fail("the wallet in Java prints something else")
    passed("a wallet in Java, with the library that its jar has")
    rows("Java", "--without", "changes", "arm64-java", *java, "Driver")


def wallet() -> str:
    """What the wallet prints."""
    transfer = (ROOT / "examples/aptos_transfer.hex").read_text(encoding="utf-8")
    normal = (ROOT / "examples/aptos_transfer_normal.json").read_text(encoding="utf-8")
    return f"{transfer}64\n{normal}EndOfInput 100 .payload::EntryFunction.ty_args[0]::Struct.address\n"
