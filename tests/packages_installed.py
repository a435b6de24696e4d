"""The parts of tests/packages.py that install packages and use them, most of them in a bare Debian."""

from __future__ import annotations

import json
import os
import pathlib
import re
import shutil

from packages_made import Rooms
from harness import ROOT, Failed, Variables, Word, output_of_c_example, processor_seconds, refused, require_same, run

# A registry from which types are written.
PAYMENT = '{"Payment":{"STRUCT":[{"to":"STR"},{"amount":"U64"}]}}'
NODE_PROGRAM = """\
import { createRequire } from 'node:module';
import { load } from 'bcs-proved';

const bcs = await load();
const required = await createRequire(import.meta.url)('bcs-proved').load();
if (required.faultName(402) !== 'BadBool') throw new Error('require');
const registry = bcs.registry('{"Payment":{"STRUCT":[{"to":"STR"},{"amount":"U64"}]}}');
const bytes = registry.encode('Payment', { to: 'bob', amount: 7n });
console.log(Buffer.from(bytes).toString('hex'), registry.decode('Payment', bytes).amount);
"""
# crates.io accepts no larger crates.
MOST_OF_CRATE = 10_000_000


def within(debian: pathlib.Path, *words: Word) -> list[Word]:
    """The command that runs another one in a bare Debian, with nothing of this machine's environment except its
    processes, which bash needs to see."""
    mount = 'mount -t proc proc "$0/proc" && exec chroot "$0" "$@"'
    environment = ["PATH=/usr/sbin:/usr/bin:/sbin:/bin", "HOME=/root", "LC_ALL=C.UTF-8"]
    return ["unshare", "--mount", "sh", "-c", mount, debian, "/usr/bin/env", "-i", *environment, *words]


def shell(debian: pathlib.Path, script: str, *words: Word) -> str:
    return run(*within(debian, "sh", "-e", "-c", script, "sh", *words))


def require_answer(*program: Word) -> None:
    """Runs a program, which must encode a number."""
    require_same(" ".join(map(str, program)), run(*program, "encode", "{}", '"I16"', given="-4660\n"), "cced\n")


def require_wallet(*words: Word, variables: Variables | None = None) -> None:
    """Runs a wallet of examples/wallet, which must print the same in every language: what Aptos signs, the normalised
    JSON, and two refusals."""
    name = "b5e97db07fa0bd0e5598aa3643a9bc6f6693bddc1a9fec9e674a461eaa00b193"
    transfer, normal = (
        (ROOT / f"examples/aptos_transfer{end}").read_text(encoding="utf-8").strip() for end in [".hex", "_normal.json"]
    )
    refusals = "BadHex /sender\nEndOfInput 100 .payload::EntryFunction.ty_args[0]::Struct.address\n"
    printed = run(*words, variables=variables)
    require_same(" ".join(map(str, words)), printed, f"{name}{transfer}\n{normal}\n{refusals}")


def require_wallet_within(debian: pathlib.Path, *words: Word) -> None:
    shutil.copytree(ROOT / "examples", debian / "root/examples", dirs_exist_ok=True)
    require_wallet(*within(debian, *words, "/root/examples"))


# Debian's package python3-yaml.
PYYAML = "/usr/lib/python3/dist-packages/yaml"
# A registry in YAML, and a part of what is made of it.
YAML = "Payment:\n  ENUM:\n    0:\n      Cash: UNIT\n"


def require_registry_command(debian: pathlib.Path, command: str) -> None:
    """It converts a registry in YAML, by this machine's PyYAML, and rejects one with a name that doesn't exist."""
    (debian / "root/registry.yaml").write_text(YAML, encoding="utf-8")
    (debian / "root/wrong.yaml").write_text("A:\n  NEWTYPESTRUCT:\n    TYPENAME: B\n", encoding="utf-8")
    shutil.copytree(PYYAML, debian / "root/yaml", dirs_exist_ok=True)
    path = ["env", "PYTHONPATH=/root"]
    printed = run(*within(debian, *path, command, "/root/registry.yaml"))
    require_same(command, str(json.loads(printed)), str({"Payment": {"ENUM": {"0": {"Cash": "UNIT"}}}}))
    refused(*within(debian, *path, command, "/root/wrong.yaml"), reason="no container is called B")


def install_program(rooms: Rooms) -> str:
    plain = rooms.debian("plain")
    for tool in ["cc", "rt", "python3", "node"]:
        refused(*within(plain, "sh", "-c", f"command -v {tool}"), reason="^$")
    shutil.copy(rooms.package("bcs_*_amd64.deb"), plain / "root")
    shell(plain, "dpkg -i /root/bcs_*.deb")
    require_answer(*within(plain, "bcs"))
    return run(*within(plain, "bcs", "--version"))


def clone(rooms: Rooms, debian: pathlib.Path) -> None:
    """Without the signature, since a bare Debian has no ssh-keygen, and without git's files, since it has no git."""
    without = shutil.ignore_patterns(".git", "SIGNERS", "SHA256SUMS.sig", "RELEASE", "RELEASE.sig")
    shutil.copytree(rooms.tree, debian / "root/clone", dirs_exist_ok=True, ignore=without)


def answer_in_clone(rooms: Rooms) -> str:
    """The first call takes less than two seconds of processor time, also on a busy machine."""
    plain = rooms.debian("plain")
    clone(rooms, plain)
    before = processor_seconds()
    require_answer(*within(plain, "/root/clone/bcs"))
    spent = processor_seconds() - before
    if spent >= 2:
        raise Failed(f"the first answer takes {spent:.2f} processor seconds, and may take 2")
    return f"the first answer in {spent:.2f} processor seconds"


def test_clone(rooms: Rooms, kind: str) -> str:
    """What a new user runs takes less than two and a half minutes of processor time on an idle machine. Here, other
    steps of the gate run beside it, and it may take six times as long."""
    debian = rooms.debian(kind)
    clone(rooms, debian)
    before = processor_seconds()
    last = run(*within(debian, "/root/clone/test")).splitlines()[-1]
    spent = processor_seconds() - before
    if not re.match("[1-9][0-9]* passed, 0 failed", last) or spent >= 900:
        raise Failed(f"{last}, in {spent:.0f} processor seconds")
    return f"{last}, in {spent:.2f} processor seconds"


def test_plain_clone(rooms: Rooms) -> str:
    """This Debian has no Python, which ./test needs and asks for."""
    clone(rooms, rooms.debian("plain"))
    refused(*within(rooms.debian("plain"), "/root/clone/test"), reason="^test: this needs python3")
    return "it asks for Python"


def test_clone_with_scripts(rooms: Rooms) -> str:
    return test_clone(rooms, "scripts")


def run_wheel_examples(*python: Word, readme: Word, folder: str, variables: Variables | None = None) -> str:
    source = (ROOT / "tests/wheel_examples.py").read_text(encoding="utf-8")
    return run(*python, "-", readme, folder, given=source, variables=variables)


def install_wheel(rooms: Rooms) -> str:
    scripts = rooms.debian("scripts")
    for wheel in rooms.made.glob("*-manylinux_*.whl"):
        shutil.copy(wheel, scripts / "root")
    shutil.copy(ROOT / "bindings/python/README.md", scripts / "root")
    shell(scripts, "cd /root; python3 -m venv own; own/bin/pip install --quiet --no-index ./*_x86_64.whl")
    types = 'cd /root; own/bin/python -m bcs_proved.types "$1" >payments.py; own/bin/python payments.py'
    shell(scripts, types, PAYMENT)
    if "class Payment(TypedDict):" not in (scripts / "root/payments.py").read_text(encoding="utf-8").splitlines():
        raise Failed("bcs_proved.types writes no class Payment")
    python = within(scripts, "/root/own/bin/python")
    told = run_wheel_examples(*python, readme="/root/README.md", folder="site-packages")
    require_wallet_within(scripts, "/root/own/bin/python", "/root/examples/wallet/wallet.py")
    require_registry_command(scripts, "/root/own/bin/bcs-registry")
    require_vectors(rooms, *python)
    return f"{told.strip()}, a wallet and test vectors"


def require_vectors(rooms: Rooms, *python: Word, variables: Variables | None = None) -> None:
    """One command makes the test vectors for the registry of Aptos, which are those in dist/."""
    registry = "/root/examples/aptos_registry.json" if python[0] == "unshare" else "examples/aptos_registry.json"
    printed = run(*python, "-m", "bcs_proved.vectors", registry, variables=variables)
    require_same("bcs_proved.vectors", printed, (rooms.tree / "dist/vectors/aptos.jsonl").read_text(encoding="ascii"))


def install_debian_module(rooms: Rooms) -> str:
    scripts = rooms.debian("scripts")
    shutil.copy(rooms.package("python3-bcs-proved_*_amd64.deb"), scripts / "root")
    shell(scripts, "dpkg -i /root/python3-bcs-proved_*.deb")
    require_wallet_within(scripts, "/usr/bin/python3", "/root/examples/wallet/wallet.py")
    require_vectors(rooms, *within(scripts, "/usr/bin/python3"))
    return "a wallet and test vectors"


def install_wheel_for_windows(rooms: Rooms) -> str:
    """pip rejects it here, and can put it where a Windows machine would have it. No Python of Windows runs it."""
    scripts = rooms.debian("scripts")
    module = scripts / "root/windows/bcs_proved"
    shutil.copy(rooms.package("*-win_amd64.whl"), scripts / "root")
    install = "cd /root; own/bin/pip install --quiet --no-index"
    here = within(scripts, "sh", "-c", f"{install} ./*-win_amd64.whl")
    refused(*here, reason="not a supported wheel on this platform")
    shell(scripts, f"{install} --no-deps --platform win_amd64 --only-binary=:all: --target windows ./*-win_amd64.whl")
    run("cmp", module / "bcs.dll", rooms.tree / "dist/x86_64-windows/bcs.dll")
    if (module / "libbcs.so").exists():
        raise Failed("the wheel for Windows has the library for Linux")
    return "pip puts it where it belongs; it isn't run"


def node_modules(package: pathlib.Path, folder: pathlib.Path) -> str:
    """By this machine's npm, since Debian's needs hundreds of packages. Without one, unpacks the package like npm."""
    if shutil.which("npm") or os.environ.get("CI") == "true":
        quiet = ["--offline", "--no-audit", "--no-fund", "--loglevel=error"]
        run("npm", "install", *quiet, package, folder=folder)
        return "npm install"
    modules = folder / "node_modules"
    (modules / ".bin").mkdir(parents=True)
    (modules / "bcs-proved").mkdir()
    run("tar", "-C", modules / "bcs-proved", "--strip-components=1", "-xzf", package)
    for name, file in [("bcs", "bcs.mjs"), ("bcs-types", "types.mjs"), ("bcs-registry", "bcs-registry.py")]:
        (modules / ".bin" / name).symlink_to(f"../bcs-proved/{file}")
    return "unpacked, as there is no npm"


def install_node_package(rooms: Rooms) -> str:
    scripts = rooms.debian("scripts")
    folder = scripts / "root/node"
    folder.mkdir()
    how = node_modules(rooms.package("bcs-proved-*.tgz"), folder)
    (folder / "program.mjs").write_text(NODE_PROGRAM, encoding="utf-8")
    printed = run(*within(scripts, "node", "/root/node/program.mjs"))
    require_same("a program in Node", printed, "03626f620700000000000000 7n\n")
    require_answer(*within(scripts, "/root/node/node_modules/.bin/bcs"))
    shutil.copy(ROOT / "examples/wallet/wallet.mjs", folder)
    require_wallet_within(scripts, "node", "/root/node/wallet.mjs")
    types = run(*within(scripts, "/root/node/node_modules/.bin/bcs-types", PAYMENT))
    if "export type Payment = {" not in types.splitlines():
        raise Failed(f"bcs-types writes no type Payment:\n{types}")
    require_registry_command(scripts, "/root/node/node_modules/.bin/bcs-registry")
    version = run(*within(scripts, "node", "--version")).strip()
    return f"{how}, a program, a wallet and the commands in Node {version}"


def unpack_tarball(rooms: Rooms) -> str:
    scripts = rooms.debian("scripts")
    run("tar", "-C", scripts / "root", "-xJf", rooms.package("bcs-*[0-9].tar.xz"))
    require_answer(*within(scripts, "sh", "-c", '/root/bcs-*/bin/bcs "$@"', "sh"))
    require_answer(*within(scripts, "sh", "-c", 'node /root/bcs-*/web/bcs.mjs "$@"', "sh"))
    shell(scripts, "cd /root/bcs-*; PYTHONPATH=python python3 -m doctest ../README.md")
    vectors = "PYTHONPATH=python python3 -m bcs_proved.vectors vectors/every_format.json"
    shell(scripts, f"cd /root/bcs-*; {vectors} | cmp - vectors/every_format.jsonl")
    shell(scripts, "cd /root; ln -s bcs-*/bin/bcs-registry bcs-registry-of-tarball")
    require_registry_command(scripts, "/root/bcs-registry-of-tarball")
    return "program, Python with test vectors, and Node where it is unpacked"


def install_c_library(rooms: Rooms) -> str:
    compiler = rooms.debian("compiler")
    shutil.copy(rooms.package("libbcs-dev_*_amd64.deb"), compiler / "root")
    for source in ["bindings/c/example.c", "examples/wallet/wallet.c"]:
        shutil.copy(ROOT / source, compiler / "root")
    shell(
        compiler,
        """dpkg -i /root/libbcs-dev_*.deb
        cd /root
        cc example.c $(pkg-config --cflags --libs bcs) -o dynamic
        cc example.c $(pkg-config --cflags bcs) -l:libbcs.a -o static
        cc wallet.c $(pkg-config --cflags --libs bcs) -o wallet""",
    )
    for name in ["dynamic", "static"]:
        require_same(f"example.c, {name},", run(*within(compiler, f"/root/{name}")), output_of_c_example())
    require_wallet_within(compiler, "/root/wallet")
    return "a C program, linked dynamically by pkg-config and statically, and a wallet"


def emulate_arm64(rooms: Rooms) -> str:
    """The packages for arm64, in the emulator, over Debian's packages for arm64 that are unpacked into a folder. No
    command there can run another one."""
    machine, scripts = rooms.top / "arm64", rooms.debian("scripts")
    emulator: list[Word] = ["qemu-aarch64-static", "-L", machine]
    run("platforms/arm64/tests/debian.sh", machine, "python3")
    for package in ["bcs", "libbcs-dev", "python3-bcs-proved"]:
        run("dpkg-deb", "-x", rooms.package(f"{package}_*_arm64.deb"), machine)
    require_answer(*emulator, machine / "usr/bin/bcs")
    settings = machine / "usr/lib/aarch64-linux-gnu/pkgconfig"
    found: Variables = {"PKG_CONFIG_SYSROOT_DIR": str(machine), "PKG_CONFIG_LIBDIR": str(settings)}
    options = run("pkg-config", "--cflags", "--libs", "bcs", variables=found).split()
    example, wallet = rooms.top / "example", rooms.top / "wallet"
    run("aarch64-linux-gnu-gcc", "bindings/c/example.c", "-o", example, *options)
    require_same("example.c for arm64", run(*emulator, example), output_of_c_example())
    run("aarch64-linux-gnu-gcc", "examples/wallet/wallet.c", "-o", wallet, *options)
    require_wallet(*emulator, wallet, "examples")
    target = "--target arm64 --only-binary=:all: --platform manylinux_2_17_aarch64"
    shell(scripts, f"cd /root; own/bin/pip install --quiet --no-index {target} ./*_aarch64.whl")
    module: Variables = {"PYTHONPATH": str(scripts / "root/arm64")}
    python = [*emulator, machine / "usr/bin/python3"]
    run_wheel_examples(*python, readme="bindings/python/README.md", folder="arm64", variables=module)
    require_wallet(*python, "examples/wallet/wallet.py", "examples", variables=module)
    module = {"PYTHONPATH": str(machine / "usr/lib/python3/dist-packages")}
    require_wallet(*python, "examples/wallet/wallet.py", "examples", variables=module)
    return "the program, C programs over the dynamic library, the wheel and Debian's module, each with a wallet"


def install_source_package(rooms: Rooms) -> str:
    """As pip installs it where no wheel fits. It would get setuptools from the network."""
    folder = rooms.top / "sdist"
    python = folder / "bin/python"
    run("/usr/bin/python3", "-m", "venv", "--system-site-packages", folder)
    options = ["--quiet", "--no-index", "--no-build-isolation", "--no-deps"]
    package = rooms.package("bcs_proved-*.tar.gz")
    run(folder / "bin/pip", "install", *options, package, variables={"CFLAGS": "-O0"})
    unset: Variables = {"BCS_LIBRARY": None, "PYTHONPATH": None}
    run_wheel_examples(python, readme="bindings/python/README.md", folder="site-packages", variables=unset)
    require_wallet(python, "examples/wallet/wallet.py", "examples", variables=unset)
    require_vectors(rooms, python, variables=unset)
    return "pip install of the source package, the examples of its README, a wallet and test vectors"


def use_crate(rooms: Rooms) -> str:
    """The first whole program of its README, without other crates, and then a wallet with serde. They are built by this
    machine's cargo, since Debian's is older than the crate needs."""
    folder, crate = rooms.top / "rust", rooms.package("bcs-proved-*.crate")
    folder.mkdir()
    run("tar", "-C", folder, "-xzf", crate)
    (unpacked,) = folder.glob("bcs-proved-*")
    program = folder / "program"
    run("cargo", "init", "--quiet", "--offline", "--vcs", "none", program)
    run("cargo", "add", "--quiet", "--offline", "--path", unpacked, folder=program)
    readme = (ROOT / "bindings/rust/README.md").read_text(encoding="utf-8")
    whole = [
        text for text in re.findall(r"^```rust\n(.*?)^```$", readme, flags=re.M | re.S) if "use serde::" not in text
    ]
    if not whole or "\nfn main" not in whole[0] or "assert_eq" not in whole[0]:
        raise Failed("the first program without serde of bindings/rust/README.md asserts nothing")
    (program / "src/main.rs").write_text(whole[0], encoding="utf-8")
    cargo = ["cargo", "run", "--quiet", "--offline", "--manifest-path", str(program / "Cargo.toml")]
    no_other_library: Variables = {"BCS_LIB": None, "PKG_CONFIG": "false"}
    run(*cargo, variables=no_other_library)
    # (with Debian's serde)
    config = ["--config", str(ROOT / "bindings/rust/.cargo/config.toml")]
    add = ["cargo", "add", "--quiet", "--offline", *config]
    run(*add, "bcs-proved", "--features", "serde_json", folder=program)
    run(*add, "serde", "--features", "derive", folder=program)
    cargo += config
    shutil.copy(ROOT / "examples/wallet/wallet.rs", program / "src/main.rs")
    require_wallet(*cargo, "examples", variables=no_other_library)
    require_wallet(*cargo, "examples", variables=no_other_library | {"BCS_FROM_C": "1", "CFLAGS": "-O0"})
    if crate.stat().st_size >= MOST_OF_CRATE:
        raise Failed(f"crates.io doesn't accept a crate of {crate.stat().st_size} bytes")
    version = run("cargo", "--version").strip()
    return f"cargo add --path, a program and a wallet, also over the library compiled from C, by {version}"
