"""The crate for Rust with the static libraries in it, where cargo finds them without a setting, and with the library in
C, which cargo compiles for other targets."""

from __future__ import annotations

import archives
import c_package
import facts

FOLDER = facts.ROOT / "bindings/rust"


def contents(bill: archives.File) -> archives.Files:
    """The files of the crate. Its examples and its tests read files of the repository, so they stay there."""
    files = archives.tree(FOLDER / "src", "src/")
    for name in ["Cargo.toml", "build.rs"]:
        files[name] = archives.taken(FOLDER / name)
    for folder in [facts.NATIVE, facts.ARM]:
        files[f"lib/{folder.name}/libbcs.a"] = archives.taken(folder / "libbcs.a")
    files |= {
        "c/bcs_library.c": c_package.library(),
        "c/bcs.h": archives.taken(facts.ROOT / "bindings/c/include/bcs.h"),
    }
    files["bcs-registry"] = archives.taken(facts.REGISTRY_COMMAND)
    files["README.md"] = archives.text(facts.readme("bindings/rust"))
    files[f"{facts.NAME}.spdx.json"] = bill
    for name in facts.licence_files().values():
        files[name] = archives.taken(facts.ROOT / name)
    return files


def name() -> str:
    return f"bcs-proved-{facts.version()}"


def make(bill: archives.File) -> dict[str, bytes]:
    return {f"{name()}.crate": archives.gzipped(archives.tar(contents(bill), f"{name()}/"))}
