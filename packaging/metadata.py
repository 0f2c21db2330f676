"""What the Python package says of itself, by python/pyproject.toml and packaging/owner.toml."""
import ast
import tomllib
from pathlib import Path

from owner import URLS, owner

ROOT = Path(__file__).resolve().parent.parent
PYTHON = ROOT / "python"
PACKAGE = PYTHON / "toxi"


def version_of(package):
    """The literal `__version__` of a package."""
    for statement in ast.parse((package / "__init__.py").read_text()).body:
        if isinstance(statement, ast.Assign) and statement.targets[0].id == "__version__":
            return ast.literal_eval(statement.value)
    raise SystemExit(f"{package} has no __version__")


def project_table():
    """What python/pyproject.toml says of the project."""
    return tomllib.loads((PYTHON / "pyproject.toml").read_text())["project"]


def metadata(project, version):
    """The file METADATA of a wheel, and PKG-INFO of a source distribution: https://packaging.python.org/en/latest/specifications/core-metadata/."""
    lines = ["Metadata-Version: 2.4", f"Name: {project['name']}", f"Version: {version}", f"Summary: {project['description']}"]
    lines += [f"Author: {author['name']}" for author in project["authors"]]
    given = owner()
    if "contact" in given:
        lines.append(f"Maintainer-email: {given['contact']}")
    lines += [f"License-Expression: {project['license']['text']}", f"Keywords: {','.join(project['keywords'])}"]
    # The expression says it.
    lines += [f"Classifier: {classifier}" for classifier in project["classifiers"] if not classifier.startswith("License ::")]
    lines += [f"Project-URL: {name}, {given[field]}" for name, field in URLS.items() if field in given]
    lines += [f"Requires-Python: {project['requires-python']}", "License-File: LICENSE", "License-File: NOTICES"]
    lines += [f"Requires-Dist: {needed}" for needed in project["dependencies"]]
    for extra, names in project["optional-dependencies"].items():
        lines += [f"Provides-Extra: {extra}", *(f'Requires-Dist: {needed}; extra == "{extra}"' for needed in names)]
    lines += ["Description-Content-Type: text/markdown", "", (PYTHON / project["readme"]).read_text()]
    return "\n".join(lines)
