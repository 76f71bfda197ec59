"""Writes all pages and all derived text, each script in its turn; with `--check` it compares them,
and ends with status 1 if something isn't current. A script that fails doesn't stop those behind it.
"""
import subprocess
import sys

from settle import is_check
from sources import ROOT

# In the order in which one reads what another writes. Those with True also write.
SCRIPTS = {
    "derive": True, "gen_objects": True, "gen_cases": True, "gen_elements": True,
    "gen_positions": True, "gen_promises": True, "check_promises": False, "gen_definitions": True,
    "gen_guide": True, "gen_pages": True, "schema_check": False, "check_links": False,
    "run_readme": False,
}


def main():
    check = is_check(__doc__)
    failed = []
    for name, writes in SCRIPTS.items():
        words = ["--check"] if check and writes else []
        ran = subprocess.run([sys.executable, ROOT / "tools" / f"{name}.py", *words],
                             stdout=subprocess.PIPE, text=True)
        if ran.returncode:
            failed.append(name)
            print(f"== {name}.py\n{ran.stdout}", end="")
    print("all pages and derived texts are current" if not failed
          else f"failed: {', '.join(f'{name}.py' for name in failed)}")
    sys.exit(1 if failed else 0)


if __name__ == "__main__":
    main()
