"""Programs of the benches, built in a folder over copies of the libraries that they stand on."""
import os
import shutil
import subprocess


def below(libraries):
    """The lines of crates.txt for libraries and what they stand on, lowest first."""
    with open("crates.txt") as it:
        lines = dict(line.split(":") for line in it if ":" in line)
    wanted, left = set(), libraries.split()
    while left:
        crate = left.pop()
        if crate in lines and crate not in wanted:
            wanted.add(crate)
            left += lines[crate].split()
    return {crate: lines[crate].strip() for crate in lines if crate in wanted}


def built(folder, name, program, libraries):
    """The program with this text over libraries, by its path. What the folder doesn't have of them is copied into it, with what is
    kept of their proofs."""
    for crate, stands_on in below(libraries).items():
        if not os.path.isdir(f"{folder}/crates/{crate}"):
            shutil.copytree(f"crates/{crate}", f"{folder}/crates/{crate}", symlinks=True)
            with open(f"{folder}/crates.txt", "a") as it:
                it.write(f"{crate}: {stands_on}\n")
    os.makedirs(f"{folder}/crates/{name}/src")
    with open(f"{folder}/crates/{name}/src/main.rt", "w") as it:
        it.write(program)
    with open(f"{folder}/crates.txt", "a") as it:
        it.write(f"{name}: {libraries}\n")
    subprocess.run(["rt", "run"], cwd=f"{folder}/crates/{name}", stdin=subprocess.DEVNULL, check=True)
    return f"{folder}/crates/{name}/out/{name}"
