"""The wheel, by pip in an empty environment, the programs of docs/PYTHON.md, and types."""

import os, pathlib, re, subprocess, sys, zipfile

from conftest import TOP, examples

PAGE = "docs/PYTHON.md"
WHEEL = next(TOP.glob("python/out/*.whl"))


def output_of(*command: str | pathlib.Path, folder: pathlib.Path, **more: str) -> str:
    environment = {name: value for name, value in os.environ.items() if not name.startswith("PYTHON")} | more
    ran = subprocess.run(command, cwd=folder, env=environment, stdout=subprocess.PIPE, stderr=subprocess.STDOUT, text=True)
    assert ran.returncode == 0, ran.stdout
    return ran.stdout


def test_wheel(tmp_path: pathlib.Path) -> None:
    """One file of machine code, which needs libc alone, uses the limited API alone, and shows one name."""
    files = zipfile.ZipFile(WHEEL).namelist()
    (library,) = (it for it in files if it.endswith(".so"))
    assert library == "chacha20/_chacha20.abi3.so" and re.fullmatch(r"chacha20-1\.\d+\.\d+-cp311-abi3-linux_\w+\.whl", WHEEL.name)
    assert {"chacha20/py.typed", "chacha20/_chacha20.pyi", "chacha20/numpy.py"} < set(files)
    assert not [it for it in files if it.endswith((".c", ".a", ".h"))]
    zipfile.ZipFile(WHEEL).extract(library, tmp_path)
    needed = re.findall(r"NEEDED.*\[(.*)\]", output_of("readelf", "-d", library, folder=tmp_path))
    assert needed == ["libc.so.6"]
    shown = output_of("nm", "-D", "--defined-only", library, folder=tmp_path).split()[2::3]
    assert shown == ["PyInit__chacha20"]


def test_page(tmp_path: pathlib.Path) -> None:
    """Each program prints what its last comment says; those without NumPy in an empty environment."""
    output_of(sys.executable, "-m", "venv", "empty", folder=tmp_path)
    output_of("empty/bin/pip", "install", "--no-index", WHEEL, folder=tmp_path)
    (site,) = tmp_path.glob("empty/lib/python*/site-packages/chacha20")
    (tmp_path / "my.key").write_bytes(bytes(range(32)))
    programs = examples(PAGE)
    for program in programs:
        (tmp_path / "program.py").write_text(program)
        if "numpy" in program:
            said = output_of(sys.executable, "program.py", folder=tmp_path, PYTHONPATH=str(site.parent))
        else:
            said = output_of("empty/bin/python", "program.py", folder=tmp_path)
        wanted = re.findall(r"print\(.*\)  # (.*)", program)
        assert wanted and said.split("\n") == [*wanted, ""], program
    assert len(programs) >= 5 and len((TOP / PAGE).read_text().split()) <= 600


def test_types(tmp_path: pathlib.Path) -> None:
    folder = TOP / "python"
    command = sys.executable, "-m", "mypy", "--strict", "--cache-dir", tmp_path, "src/chacha20", "tests"
    assert "Success" in output_of(*command, folder=folder)
