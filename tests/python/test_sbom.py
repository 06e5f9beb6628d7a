"""The bill of materials of tools/sbom: the release's files by their digests, what is compiled in, and the license of each."""

from __future__ import annotations

import copy
import hashlib
import json
import pathlib
import platform
import re
import shutil
import subprocess
import sys
from collections.abc import Iterator
from typing import Any

import pytest

TOP = pathlib.Path(__file__).resolve().parents[2]
sys.path.insert(0, str(TOP / "tools"))
import manifest  # noqa: E402
from third_party import NO_TERMS, followed, parts  # noqa: E402

SCHEMA = json.loads((TOP / "tests/python/spdx_2_3.schema.json").read_text())
RELEASE = TOP / "release" / f"{platform.machine()}-linux"

if not RELEASE.exists():
    pytest.skip("there is no release for this machine", allow_module_level=True)


def printed(*words: str, status: int = 0) -> str:
    done = subprocess.run([TOP / "tools/sbom", *words], stdout=subprocess.PIPE, stderr=subprocess.PIPE, text=True)
    assert done.returncode == status
    return done.stdout


@pytest.fixture(scope="module")
def document() -> dict[str, Any]:
    made: dict[str, Any] = json.loads(printed())
    return made


def test_what_spdx_demands(document: dict[str, Any]) -> None:
    """SPDX 2.3, what its schema doesn't say: identifiers that occur once, and relationships between them; the verification
    code of section 7.9."""
    names = ["SPDXRef-DOCUMENT", *(one["SPDXID"] for one in document["packages"] + document["files"])]
    assert len(set(names)) == len(names)
    for relation in document["relationships"]:
        assert {relation["spdxElementId"], relation["relatedSpdxElement"]} <= set(names)
    sums = sorted(file["checksums"][0]["checksumValue"] for file in document["files"])
    wanted = hashlib.sha1("".join(sums).encode()).hexdigest()
    assert document["packages"][0]["packageVerificationCode"]["packageVerificationCodeValue"] == wanted


def faults(document: dict[str, Any]) -> list[str]:
    jsonschema = pytest.importorskip("jsonschema")
    return [fault.json_path for fault in jsonschema.Draft7Validator(SCHEMA).iter_errors(document)]


def test_the_schema(document: dict[str, Any]) -> None:
    assert faults(document) == []


def paths(value: Any, path: tuple[Any, ...] = ()) -> Iterator[tuple[Any, ...]]:
    """Of each member: of lists only the first and the last item."""
    pairs = value.items() if isinstance(value, dict) else [(at, value[at]) for at in sorted({0, len(value) - 1}) if value]
    for key, below in pairs:
        yield (*path, key)
        if isinstance(below, (dict, list)):
            yield from paths(below, (*path, key))


NEEDED = """spdxVersion dataLicense SPDXID documentNamespace creationInfo created creators packages downloadLocation algorithm
    packageVerificationCode checksumValue fileName checksums licenseId extractedText spdxElementId relationshipType
    relatedSpdxElement referenceCategory referenceType referenceLocator""".split()


def test_the_schema_finds_faults(document: dict[str, Any]) -> None:
    """A member of another kind, one more, and one that is missing, anywhere."""
    missing = set()
    for *folders, last in paths(document):
        changed = copy.deepcopy(document)
        place = changed
        for key in folders:
            place = place[key]
        place[last] = 17
        assert faults(changed), (*folders, last)
        del place[last]
        if last in NEEDED:
            missing.add(last)
            assert faults(changed), (*folders, last)
    assert missing == set(NEEDED)
    for place in (document, document["packages"][0], document["files"][0], document["relationships"][0]):
        place["more"] = 1
        assert faults(document)
        del place["more"]
    assert not faults(document)


def test_a_damaged_manifest_makes_none(tmp_path: pathlib.Path) -> None:
    for name in ("tools", "release", "format"):
        shutil.copytree(TOP / name, tmp_path / name)
    (tmp_path / "release" / RELEASE.name / "MANIFEST").write_text("{}\n")
    done = subprocess.run([tmp_path / "tools/sbom"], stdout=subprocess.PIPE, stderr=subprocess.PIPE, text=True)
    assert (done.returncode, done.stdout) == (1, "") and "is no statement of tools/release" in done.stderr


# ---- licenses


def test_licenses_are_of_spdx(document: dict[str, Any]) -> None:
    licensing = pytest.importorskip("license_expression").get_spdx_licensing()
    said = {one["licenseConcluded"] for one in document["packages"] + document["files"]}
    said |= {one["licenseDeclared"] for one in document["packages"]} - {"NOASSERTION", "NONE"}
    own = {one["licenseId"] for one in document["hasExtractedLicensingInfos"]}
    assert len(own) == 1 and len(said) > 4
    for license in said:
        assert set(licensing.unknown_license_keys(license)) <= own, license


def test_the_license_of_the_whole_is_the_sum(document: dict[str, Any]) -> None:
    licensing = pytest.importorskip("license_expression").get_spdx_licensing()
    whole, *rest = document["packages"]
    contained = {one["relatedSpdxElement"] for one in document["relationships"] if one["relationshipType"] == "CONTAINS"}
    terms = [whole["licenseDeclared"], *(one["licenseConcluded"] for one in rest if one["SPDXID"] in contained)]
    total = licensing.parse(" AND ".join(f"({term})" for term in terms))
    for one in (whole, *document["files"]):
        assert licensing.parse(one["licenseConcluded"]).simplify() == total.simplify()


def test_nothing_is_left_open_but_what_no_file_says(document: dict[str, Any]) -> None:
    """And then the text says so. NONE is said of what has no such words at all."""
    own = {part.name: part for part in parts() if part.license is None}
    for package in document["packages"]:
        left_open = {key for key, value in package.items() if value == "NOASSERTION"}
        if package["name"] in own:
            part = own[package["name"]]
            assert left_open == ({"licenseDeclared"} if followed(part) else set())
            assert package["licenseDeclared"] == ("NOASSERTION" if followed(part) else "NONE")
            said = package["licenseComments"].splitlines()
            assert said == [NO_TERMS, *(f'{", ".join(one.files)}: "{one.says}"' for one in part.says)]
        elif package["name"] == "rattle-kit":
            assert left_open == {"licenseDeclared", "copyrightText"} and package["licenseComments"] == NO_TERMS
        else:
            assert left_open <= ({"copyrightText"} if package["name"] == "glibc" else set())


def test_a_library_that_follows_others_is_under_their_terms(document: dict[str, Any]) -> None:
    (core,) = (package for package in document["packages"] if package["name"] == "core")
    assert core["licenseConcluded"] == "LicenseRef-Rattle-kit AND (MIT OR Apache-2.0) AND (Unlicense OR MIT)"
    assert core["copyrightText"] == "Copyright (c) 2015 Andrew Gallant"


def test_what_follows_a_crate_has_its_version_and_purl(document: dict[str, Any]) -> None:
    packages = {package["name"]: package for package in document["packages"]}
    for part in parts():
        package = packages[part.name]
        found = [one["referenceLocator"] for one in package.get("externalRefs", []) if one["referenceType"] == "purl"]
        assert found == [f"pkg:cargo/{crate}@{version}" for crate, version in part.crates.items()]
        assert all(re.fullmatch(r"pkg:cargo/[a-z0-9_-]+@\d+\.\d+\.\d+", purl) for purl in found)
        assert part.license is None or package["licenseDeclared"] == part.license
        assert not found or found[0].endswith(f"@{package['versionInfo']}")
        assert all(line in package["copyrightText"] for line in part.copyright)


def test_the_files_of_the_release(document: dict[str, Any]) -> None:
    assert {file["fileName"] for file in document["files"]} == {"./tracehost", "./libtracehost.so", "./libtracehost.a"}
    for file in document["files"]:
        data = (RELEASE / file["fileName"]).read_bytes()
        sums = {one["algorithm"]: one["checksumValue"] for one in file["checksums"]}
        assert sums == {"SHA1": hashlib.sha1(data).hexdigest(), "SHA256": hashlib.sha256(data).hexdigest()}
        assert sums["SHA256"] == manifest.read(RELEASE)[1][file["fileName"][2:]]


def test_what_is_compiled_in(document: dict[str, Any]) -> None:
    """Each library of the kit that the program or the library contains; no crate of the repository."""
    own = {path.name for path in (TOP / "crates").iterdir()}
    packages = {package["name"] for package in document["packages"]}
    assert {"serde_json", "clap", "bitflags", "std", "tracehost", "glibc", "rattle-kit"} <= packages
    assert {part.name for part in parts()} <= packages
    assert packages & own == {"tracehost"}


def test_twice_the_same_and_its_usage() -> None:
    assert printed() == printed()
    assert "tools/sbom >tracehost.spdx.json" in printed("--help")
    assert printed("--nothing", status=2) == ""


def test_the_digests_in_the_changelog() -> None:
    """tools/release writes them under the release's version."""
    version = manifest.read(RELEASE)[0]["version"]
    changelog = (TOP / "CHANGELOG.md").read_text(encoding="utf-8")
    (part,) = (part for part in re.split(r"^## ", changelog, flags=re.MULTILINE) if part.startswith(f"[{version}]"))
    for name in ("tracehost", "libtracehost.a", "libtracehost.so"):
        digest = hashlib.sha256((RELEASE / name).read_bytes()).hexdigest()
        assert part.count(f"- `{name}`: `{digest}`\n") == 1
    assert part.count("### Digests") == 1


def test_digests_are_written_in_place_of_older_ones(tmp_path: pathlib.Path) -> None:
    for name in ("tools/release", "tools/manifest.py", "tools/crates.py", "CHANGELOG.md", f"release/{RELEASE.name}/MANIFEST"):
        (tmp_path / name).parent.mkdir(parents=True, exist_ok=True)
        shutil.copy(TOP / name, tmp_path / name)
    said, changelog = tmp_path / "release" / RELEASE.name / "MANIFEST", tmp_path / "CHANGELOG.md"
    program = hashlib.sha256((RELEASE / "tracehost").read_bytes()).hexdigest()
    before = changelog.read_text(encoding="utf-8")
    said.write_text(said.read_text().replace(program, "0" * 64))
    for _ in range(2):
        subprocess.run([tmp_path / "tools/release", "--changelog"], check=True)
        assert changelog.read_text(encoding="utf-8") == before.replace(program, "0" * 64)
    said.write_text(said.read_text().replace('"version": "', '"version": "9'))
    done = subprocess.run([tmp_path / "tools/release", "--changelog"], stderr=subprocess.PIPE, text=True)
    assert (done.returncode, done.stderr.startswith("release: CHANGELOG.md has no version 9")) == (1, True)
